//! Pack, unpack, pack: a query's text gives its file, and the file's text the same file again.

mod common;

use std::fs;
use std::time::{Duration, Instant};

use common::{example, texts};
use fanchuki::text::parse;
use reference::decode::decode;
use reference::encode::encode_stated;
use reference::generate::queries::Extent;
use reference::names::Names;
use reference::random::Random;
use reference::stated::{Form, Stated};
use reference::text::print;

const CASES: u64 = 3_000;

fn random_query(random: &mut Random, case: u64) -> (Stated, Names) {
    texts::random_query(random, &Extent::full(), Form::ALL[(case % 2) as usize])
}

#[test]
fn without_names() {
    for case in 0..CASES {
        let (stated, _) = random_query(&mut Random::for_case(61, case), case);
        let packed = encode_stated(&stated);
        let unpacked = print(&decode(&packed, stated.form()).unwrap(), &Names::default());
        let again = texts::taken(&unpacked);
        assert_eq!(encode_stated(&again.stated), packed, "case {case}:\n{unpacked}");
        assert_eq!(again.names, Names::default(), "case {case}");
    }
}

#[test]
fn with_names() {
    for case in 0..CASES {
        let random = &mut Random::for_case(62, case);
        let (stated, names) = random_query(random, case);
        let text = print(&stated, &names);
        let named = texts::taken(&text);
        assert_eq!(encode_stated(&named.stated), encode_stated(&stated), "case {case}:\n{text}");
        assert_eq!((&named.stated, &named.names), (&stated, &names), "case {case}:\n{text}");
        assert_eq!(print(&named.stated, &named.names), text, "case {case}");
    }
}

/// Statements that refer may stand before those that declare; each kind keeps its order.
#[test]
fn in_any_order() {
    for case in 0..1_000 {
        let random = &mut Random::for_case(63, case);
        let (stated, names) = random_query(random, case);
        let text = print(&stated, &names);
        let kind =
            |line: &str| ["site", "rela", "join"].iter().position(|&kind| line.starts_with(kind));
        let mut lines: Vec<&str> = text.lines().collect();
        random.shuffle(&mut lines);
        let mut in_order =
            [0, 1, 2].map(|one| text.lines().filter(move |line| kind(line) == Some(one)));
        let turned: Vec<&str> = lines
            .iter()
            .map(|&line| kind(line).map_or(line, |one| in_order[one].next().unwrap()))
            .collect();
        let turned = texts::taken(&turned.join("\r\n"));
        assert_eq!((turned.stated, turned.names), (stated, names), "case {case}");
    }
}

#[test]
fn the_star_of_nine_is_read_in_no_time() {
    let text = fs::read_to_string(example("star-of-nine.txt")).unwrap();
    let timed = |_| {
        let begun = Instant::now();
        assert!(parse(&text).is_ok());
        begun.elapsed()
    };
    let least = (0..20).map(timed).min().unwrap();
    assert!(least < Duration::from_millis(5), "{least:?}");
}
