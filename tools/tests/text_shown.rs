//! Faults as they are shown: the line with a caret below the column, and how many there are.

mod common;

use common::run_on;
use fanchuki::failure::Failure;
use fanchuki::text::{decoded, parse, refused};

#[test]
fn a_fault_is_shown_below_its_line() {
    let text = "site a may join, fixed 1, rate 1\n\trelation b at c\n";
    let Err(faults) = parse(text) else { panic!("a fault") };
    let shown = "\
t:2:16: no site 'c'; the one site is a
  \trelation b at c
  \t              ^
t:2:17: no delivery; expected 'delivery to' and a site
  \trelation b at c
  \t               ^
t:2:17: no size of 'b'; expected 'size of .. is N' for each connected set, or rows and divisors
  \trelation b at c
  \t               ^
3 faults";
    assert_eq!(refused("t", text.as_bytes(), &faults), Failure::Refused(shown.to_string()));
    let long = format!("# {0}\nsite {0} may join{1}", "x".repeat(300), " y".repeat(300));
    let Failure::Refused(shown) = refused("t", long.as_bytes(), &parse(&long).unwrap_err()) else {
        panic!("a refusal");
    };
    assert!(shown.lines().all(|line| line.chars().count() < 200), "{shown}");
    let [line, caret] = [1, 2].map(|number| shown.lines().nth(number).unwrap());
    assert_eq!(line.chars().nth(caret.find('^').unwrap()), Some('x'), "{shown}");
}

#[test]
fn bytes_that_are_no_text_are_told_with_their_place() {
    let told = |bytes: &[u8]| match decoded(bytes, "t") {
        Err(Failure::Refused(reason)) => reason,
        other => panic!("{other:?}"),
    };
    let said = told(b"\xef\xbb\xbfsite \xff may join\n");
    assert_eq!(
        said,
        "t:1:6: the byte 0xff is not UTF-8, and a text is\n  site \u{fffd} may join\n       ^"
    );
    assert!(told("# é\nsites é".as_bytes().strip_suffix(b"\xa9").unwrap())
        .starts_with("t:2:7: the byte 0xc3"));
    let ended = run_on(&["plan", "-"], b"site 0\n# \xff\n");
    assert_eq!((ended.code, ended.printed.len()), (1, 0));
    assert!(ended.said.contains("standard input:2:3: the byte 0xff"), "{}", ended.said);
}
