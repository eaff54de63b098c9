//! Where the proved program and the tool's model come to two answers, the tool ends with 3.

mod common;

use common::stand_in::{run_by_answers, run_by_script};
use common::{example, stored};
use reference::limits::LONGEST_PLAN;

/// A plan of Q that costs 21, and one that is refused with 11 at step 2.
const RIGHT: &str = "plan-q.txt";
const WRONG: &str = "plan-two-indexes.txt";

const LOAD: &str = "load 2 3";
/// The answer of solve for Q, its plan and the rest of the output.
const PLAN: &str = "040100010102000300";

fn solved(cost: u64) -> String {
    format!("solved {cost} 9 3 {PLAN}{}", "00".repeat(LONGEST_PLAN - PLAN.len() / 2))
}

fn check(plan: &str, lines: &[&str]) -> (i32, String, String) {
    let answers = format!("{LOAD}\n{}\n", lines.join("\n"));
    run_by_answers(&answers, &["check", &example("q.txt"), &stored(plan)]).told()
}

fn is_fault((code, printed, said): (i32, String, String)) {
    assert_eq!((code, printed.as_str()), (3, ""), "{said}");
    assert!(said.starts_with("fanchuki: ") && said.lines().count() == 1, "{said}");
}

#[test]
fn the_right_answers_are_taken() {
    let (code, printed, said) = check(RIGHT, &["check 21", &solved(21), "cells OK"]);
    assert_eq!((code, said.as_str()), (0, ""));
    assert_eq!(printed, "accepted at 21\nthis is the cheapest cost\n");
    let (code, printed, said) = check(WRONG, &["refused 11 2"]);
    assert_eq!((code, said.as_str()), (1, ""));
    assert!(printed.starts_with("refused 11 at step 2 (line 4), join 0: "), "{printed}");
}

#[test]
fn another_verdict_of_check() {
    for (plan, answer, said) in [
        (RIGHT, "check 22", "answers cost 22, the tool comes to cost 21"),
        (RIGHT, "refused 11 3", "answers refused 11 at 3, the tool comes to cost 21"),
        (WRONG, "refused 11 1", "answers refused 11 at 1, the tool comes to refused 11 at 2"),
        (WRONG, "refused 11", "answers refused 11, the tool comes to refused 11 at 2"),
        (WRONG, "refused 10 2", "answers refused 10 at 2, the tool comes to refused 11 at 2"),
        (WRONG, "check 21", "answers cost 21, the tool comes to refused 11 at 2"),
    ] {
        let said = format!("fanchuki: the proved check {said}\n");
        assert_eq!(check(plan, &[answer]), (3, String::new(), said));
    }
    is_fault(check(RIGHT, &["checked 21"]));
}

#[test]
fn a_solve_that_does_not_go_with_check() {
    for (answer, said) in [
        (
            vec![&solved(22)[..], "cells OK"],
            "the proved cost is 22, and the prices of the plan's steps come to 21",
        ),
        (vec!["no-route 3", "cells OK", "output OK"], "check answers 21, and solve no route"),
        (vec![&solved(21), "cells CHANGED"], "the program 'calls' answered 'cells CHANGED'"),
    ] {
        let lines = [&["check 21"], &answer[..]].concat();
        assert_eq!(check(RIGHT, &lines), (3, String::new(), format!("fanchuki: {said}\n")));
    }
}

#[test]
fn no_route_where_the_tool_finds_one() {
    let answers = format!("{LOAD}\nno-route 3\ncells OK\noutput OK\n");
    let said = "fanchuki: solve answers no route, and the tool finds one\n";
    let explained = run_by_answers(&answers, &["explain", &example("q.txt")]);
    assert_eq!(explained.told(), (3, String::new(), said.into()));
}

fn whatif(words: &[&str], lines: &[&str]) -> (i32, String, String) {
    let answers = lines.join("\n") + "\n";
    let q = example("q.txt");
    run_by_answers(&answers, &[&["whatif", &q, "--line"], words].concat()).told()
}

#[test]
fn another_answer_of_solve_or_link() {
    let (today, ok) = (solved(21), "cells OK");
    let cheaper = solved(20);
    for (words, lines, said) in [
        (
            vec!["1", "0"],
            vec![LOAD, &cheaper, ok],
            "cost is 20, and the prices of the plan's steps come to 21",
        ),
        (
            vec!["1", "0"],
            vec![LOAD, &today, ok, "refused 6"],
            "link answers refused 6, the tool comes to done",
        ),
        (
            vec!["1", "3"],
            vec![LOAD, &today, ok, "link"],
            "link answers done, the tool comes to refused 6",
        ),
        (
            vec!["1", "0", "rate", "1001"],
            vec![LOAD, &today, ok, "refused 6"],
            "link answers refused 6, the tool comes to refused 3",
        ),
        (
            vec!["1", "0", "fixed", "2"],
            vec![LOAD, &today, ok, "link", &today, ok],
            "cost is 21, and the prices of the plan's steps come to 22",
        ),
    ] {
        let said = format!("fanchuki: the proved {said}\n");
        assert_eq!(whatif(&words, &lines), (3, String::new(), said));
    }
}

#[test]
fn a_program_that_ends_too_early() {
    let q = example("q.txt");
    for script in ["true", "exit 3", "echo load 2 3", "kill -s SEGV $$"] {
        is_fault(run_by_script(script, &["check", &q, &stored(RIGHT)]).told());
        is_fault(run_by_script(script, &["whatif", &q, "--line", "1", "0"]).told());
    }
}

#[test]
fn another_answer_of_load() {
    is_fault(whatif(&["1", "0"], &["refused 4"]));
    is_fault(whatif(&["1", "0"], &["load 2"]));
}
