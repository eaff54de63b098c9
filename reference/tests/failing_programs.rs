//! Programs that cannot start, crash, or end with another code than 0: none of them
//! passes, whatever it printed, and none is told apart.

use std::io::Write;
use std::process::{Command, Output, Stdio};

use reference::compare::apart::{self, Verdict};
use reference::compare::program::{Answering, Feed, Program};
use reference::compare::{calls, plan};
use reference::encode::encode;
use reference::method::Method;
use reference::names::Names;
use reference::pinned;

const PLAN: &str = env!("CARGO_BIN_EXE_model_plan");
const CALLS: &str = env!("CARGO_BIN_EXE_model_calls");

/// What a failing program does once the right answer is printed.
const ENDINGS: [&str; 3] = ["exit 3", "kill -s SEGV $$", "echo more"];

/// A program that prints the right answer and then does more.
fn right_then(model: &str, ending: &str) -> Program {
    let words = ["-c", &format!("\"$0\" && {ending}"), model];
    Program { path: "sh".into(), arguments: words.map(String::from).to_vec() }
}

fn not_there() -> Program {
    Program::new("/no/such/program")
}

fn silent() -> Program {
    Program::new("true")
}

fn verdict(program: &Program) -> std::io::Result<Verdict> {
    apart::told_apart(Method::OnlyHomes, 1, 300, |file| program.run(file, Feed::Whole))
}

#[test]
fn a_program_that_is_not_there() {
    assert!(plan::compare(&not_there(), 1, 1).is_err());
    assert!(calls::compare(&not_there(), 1, 1).is_err());
    assert!(verdict(&not_there()).is_err());
}

#[test]
fn a_program_that_prints_nothing() {
    assert!(plan::compare(&silent(), 1, 1).unwrap().is_err());
    assert!(calls::compare(&silent(), 1, 1).unwrap().is_err());
    assert!(matches!(verdict(&silent()), Ok(Verdict::NotRight(_))));
}

#[test]
fn a_program_that_prints_what_is_right_and_fails() {
    assert!(matches!(verdict(&right_then(PLAN, "true")), Ok(Verdict::Told(_))));
    for ending in ENDINGS {
        assert!(plan::compare(&right_then(PLAN, ending), 1, 1).unwrap().is_err(), "{ending}");
        assert!(calls::compare(&right_then(CALLS, ending), 1, 1).unwrap().is_err(), "{ending}");
        let verdict = verdict(&right_then(PLAN, ending));
        assert!(matches!(verdict, Ok(Verdict::NotRight(_))), "{ending}");
    }
}

#[test]
fn a_program_that_leaves_out_the_last_line_end() {
    let cut = |model: &str| {
        let words = ["-c", "printf %s \"$(\"$0\")\"", model].map(String::from);
        Program { path: "sh".into(), arguments: words.to_vec() }
    };
    assert!(plan::compare(&cut(PLAN), 1, 1).unwrap().is_err());
    assert!(calls::compare(&cut(CALLS), 1, 1).unwrap().is_err());
}

fn run(tool: &str, arguments: &[&str], input: &[u8]) -> Output {
    let mut tool = Command::new(tool);
    tool.args(arguments).stdin(Stdio::piped()).stdout(Stdio::piped()).stderr(Stdio::piped());
    let mut child = tool.spawn().unwrap();
    child.stdin.take().unwrap().write_all(input).unwrap();
    child.wait_with_output().unwrap()
}

#[test]
fn the_comparing_programs_say_so_by_their_codes() {
    let ended = |tool: &str, program: &str, count: &str| {
        run(tool, &[program, "1", count], &[]).status.code()
    };
    for tool in [env!("CARGO_BIN_EXE_diff_plan"), env!("CARGO_BIN_EXE_tell_apart")] {
        assert_eq!(ended(tool, PLAN, "100"), Some(0), "{tool}");
        assert_eq!(ended(tool, "true", "100"), Some(1), "{tool}");
        assert_eq!(ended(tool, "/no/such/program", "100"), Some(2), "{tool}");
        assert_eq!(ended(tool, PLAN, "0"), Some(2), "no cases pass nothing: {tool}");
    }
    let tool = env!("CARGO_BIN_EXE_diff_calls");
    assert_eq!(ended(tool, CALLS, "1"), Some(0));
    assert_eq!(ended(tool, "true", "1"), Some(1));
    assert_eq!(ended(tool, "/no/such/program", "1"), Some(2));
}

#[test]
fn a_mismatch_shows_the_query_as_text() {
    let shown = run(env!("CARGO_BIN_EXE_diff_plan"), &["true", "1", "1"], &[]).stdout;
    let shown = String::from_utf8(shown).unwrap();
    assert!(shown.contains(&reference::hex::hex(&encode(&pinned::q()))), "{shown}");
    assert!(
        shown.contains(&reference::text::print(&pinned::q().into(), &Names::default())),
        "{shown}"
    );
}

#[test]
fn a_query_that_is_too_large_to_search() {
    let tool = env!("CARGO_BIN_EXE_exhaustive");
    let large = run(tool, &[], &encode(&pinned::uniform(pinned::star(9), 8)));
    assert_eq!(large.status.code(), Some(3));
    assert_eq!(large.stdout, b"");
    assert!(String::from_utf8_lossy(&large.stderr).starts_with("exhaustive: too large"));
    let small = run(tool, &[], &encode(&pinned::q()));
    assert_eq!((small.status.code(), &small.stdout[..]), (Some(0), &b"cheapest 21\n"[..]));
}
