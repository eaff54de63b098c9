//! `fanchuki whatif`: what changed lines do, what is refused, and usage.

mod common;

use common::texts::q;
use common::{example, held_to, run, run_on};
use fanchuki::whatif::changes::Change;
use reference::names::Names;

/// What is printed of an example, with the words behind its name.
fn whatif(name: &str, words: &[&str]) -> String {
    let file = example(name);
    let run = run(&[&["whatif", &file], words].concat());
    assert_eq!(run.code, i32::from(run.text().contains("\nafter: no route")), "{}", run.said);
    assert!(run.said.is_empty());
    format!("whatif {name} {}\n\n{}\n", words.join(" "), run.text())
}

#[test]
fn changes_of_q_are_stored() {
    let printed = [
        whatif("q.txt", &["--line", "1", "0"]),
        whatif("q.txt", &["--line", "1", "0", "closed"]),
        whatif("q.txt", &["--line", "1", "0", "rate", "3", "fixed", "2"]),
        whatif("q.txt", &["--line", "1", "0", "closed", "--line", "2", "0", "closed"]),
        whatif("q.query", &["--line", "0", "1", "fixed", "0", "rate", "0", "--line", "0", "2"]),
        whatif("q.txt", &["--line", "1", "0", "fixed", "0", "--line", "2", "0", "open"]),
    ];
    held_to("whatif-q.txt", &printed.concat());
}

#[test]
fn changes_of_the_other_examples_are_stored() {
    let printed = [
        whatif("chain-of-five.txt", &["--line", "0", "1", "fixed", "400", "--line", "3", "4"]),
        whatif("chain-of-five.query", &["--line", "4", "5", "closed", "rate", "2"]),
        whatif("star-of-nine.txt", &["--line", "0", "1", "--line", "1", "0", "fixed", "0"]),
        whatif("longest-plan.txt", &["--line", "1", "0", "closed"]),
        whatif("chain-from-rows.txt", &["--line", "0", "1", "closed", "--line", "1", "0"]),
    ];
    held_to("whatif-examples.txt", &printed.concat());
    let of_file = run(&["whatif", "--rows", &example("chain-from-rows.rows"), "--line", "0", "1"]);
    let of_text = run(&["whatif", &example("chain-from-rows.txt"), "--line", "0", "1"]);
    assert_eq!((of_file.code, &of_file), (0, &of_text));
}

/// Q, with lines of its own behind it.
fn q_with(lines: &str) -> String {
    q() + lines
}

#[test]
fn closed_lines_and_no_route_are_stored() {
    let one = "line 1 to 0 closed, fixed 1, rate 1\n";
    let both = format!("{one}line 2 to 0 closed, fixed 9, rate 0\n");
    let limit = "line 2 to 0 closed, fixed 0, rate 7\nline 1 to 0 open, fixed 1000000, rate 1000\n";
    let mut printed = String::new();
    for (text, words, code) in [
        (q_with(one), &["--line", "1", "0", "open"][..], 0),
        (q_with(one), &["--line", "1", "0", "open", "fixed", "7"], 0),
        (q_with(&both), &["--line", "1", "0", "fixed", "7"], 1),
        (q_with(&both), &["--line", "1", "0", "open", "--line", "2", "0"], 0),
        (q_with(limit), &["--line", "2", "0"], 0),
    ] {
        let run = run_on(&[&["whatif", "-"], words].concat(), text.as_bytes());
        assert_eq!(run.code, code, "{}", run.said);
        printed += &format!("whatif - {}\n\n{}\n", words.join(" "), run.text());
    }
    held_to("whatif-closed.txt", &printed);
}

#[test]
fn what_link_refuses() {
    let q = example("q.txt");
    for (words, said) in [
        (["0", "3", "fixed", "1"], "refused 6: there is no site 3: must be 0 to 2"),
        (
            ["4294967297", "0", "rate", "1001"],
            "refused 6: there is no site 4294967297: must be 0 to 2",
        ),
        (["1", "1", "fixed", "1000001"], "refused 6: no line leads from site 1 to itself"),
        (["1", "0", "fixed", "1000001"], "refused 3: fixed 1000001: must be 0 to 1000000"),
        (["1", "0", "rate", "1001"], "refused 3: rate 1001: must be 0 to 1000"),
    ] {
        let run = run(&[&["whatif", &q, "--line"], &words[..]].concat());
        assert_eq!((run.code, run.printed.len()), (1, 0), "{words:?}");
        assert_eq!(run.said, format!("{said}\n"));
    }
}

#[test]
fn a_line_that_is_so_already() {
    let found = run(&["whatif", &example("q.txt"), "--line", "1", "0", "open", "rate", "1"]).text();
    let told = "\n\nchanged: nothing, since it is so already\nafter: the same plan, cost 21\n";
    assert!(found.contains(told), "{found}");
    let asked = run(&["whatif", &example("q.txt"), "--line", "1", "0"]).text();
    assert!(!asked.contains("changed"), "{asked}");
}

#[test]
fn usage() {
    let (q, shop) = (example("q.txt"), example("shop.txt"));
    let line = ["--line", "1", "0"];
    for (words, said) in [
        (vec![&q[..]], "no --line is named"),
        (vec![&q, "--line"], "--line needs the two sites of a line"),
        (vec![&q, "--line", "1"], "--line needs the two sites of a line"),
        (vec!["--line", "1", "0"], "the FILE, which stands before the first --line, is missing"),
        ([&[&q[..]], &line[..], &["fixed"]].concat(), "'fixed' needs a number behind it"),
        ([&[&q[..]], &line[..], &["fixed", "x"]].concat(), "'x' behind 'fixed' is not a number"),
        (
            [&[&q[..]], &line[..], &["rate", "1", "rate", "2"]].concat(),
            "'rate' is there twice behind one --line",
        ),
        (
            [&[&q[..]], &line[..], &["open", "closed"]].concat(),
            "'open' or 'closed' is there twice behind one --line",
        ),
        (
            [&[&q[..]], &line[..], &["fixd", "2"]].concat(),
            "'fixd' says nothing of a line: it is open, closed, fixed F or rate R; \
             did you mean 'fixed'?",
        ),
        ([&[&q[..]], &line[..], &line[..]].concat(), "the line 1 to 0 is named twice"),
        ([&[&q[..]], &line[..], &["fixed", "-1"]].concat(), "'-1' behind 'fixed' is not a number"),
        ([&[&q[..]], &line[..], &["rate", "+1"]].concat(), "'+1' behind 'rate' is not a number"),
        (
            [&[&q[..]], &line[..], &["rate", "18446744073709551616"]].concat(),
            "'18446744073709551616' behind 'rate' is too large",
        ),
        (vec![&q, "--line", "north", "0"], "no site 'north'"),
        (vec![&q, "--line", "+1", "0"], "no site '+1'"),
        (vec![&q, "--lines", "1", "0"], "no option --lines; did you mean '--line'?"),
        (vec![&q, "--nothing", "--line", "1", "0"], "no option --nothing"),
        (
            vec![&shop, "--line", "0", "south", "--line", "north", "1"],
            "the line north to south is named twice",
        ),
        (vec![&q, &q, "--line", "1", "0"], "is one word too many"),
    ] {
        let run = run(&[&["whatif"], &words[..]].concat());
        assert_eq!((run.code, run.printed.len()), (2, 0), "{words:?}: {}", run.said);
        assert!(run.said.lines().next().is_some_and(|it| it.ends_with(said)), "{}", run.said);
    }
}

#[test]
fn sites_by_name() {
    let some = |name: &str| Some(name.to_string());
    let names = Names { sites: vec![some("north"), None, some("east")], relations: Vec::new() };
    let read = |words: &[&str]| {
        let words: Vec<_> = words.iter().map(Into::into).collect();
        Change::read(&words, &names)
    };
    let change = read(&["east", "1", "closed", "rate", "4"]).expect("a change");
    assert_eq!((change.sender, change.receiver), (2, 1));
    assert_eq!((change.open, change.fixed, change.rate), (Some(false), None, Some(4)));
    let said = read(&["nroth", "1"]).expect_err("no such site");
    assert_eq!((said.code(), said.reason()), (2, "no site 'nroth'; did you mean 'north'?"));
}
