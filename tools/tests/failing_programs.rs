//! Proved programs that fail or print what they never print: 3, with the reason.

mod common;

use std::time::{Duration, Instant};

use common::stand_in::{run_by_script, tool_by_script};
use common::subcommands::{all_fail, is_told};
use common::{example, held_to, root};

#[test]
fn programs_that_fail_or_print_nonsense() {
    let scripts = [
        ("exit 7", "exit status: 7"),
        ("echo refused 21; exit 7", ""),
        ("kill -s SEGV $$", "signal: 11"),
        (":", ""),
        ("echo nonsense", "nonsense"),
        ("echo", ""),
        ("printf nonsense", "nonsense"),
        ("printf '\\377\\376\\n'", "\u{fffd}"),
        ("head -c 1000000 /dev/zero", "and more"),
        ("head -c 1000000 /dev/zero | tr '\\0' '\\n'", ""),
        ("echo refused 21", ""),
        ("printf 'plan 4 cost 21 trials 3\\nload 0\\n'", ""),
        ("printf 'plan x cost 21 trials 3\\n'", ""),
        ("printf 'plan 1 cost 21 trials 3\\nload x\\n'", ""),
        ("printf 'plan 1 cost 21 trials 3\\nload 77777777777777777777\\n'", ""),
    ];
    for (script, said) in scripts {
        all_fail(|| tool_by_script(script), said);
    }
}

/// Answers of `calls` that have the right words and wrong figures.
#[test]
fn answers_that_cannot_be() {
    let long = "18446744073709551615";
    let answers = [
        format!("echo load 4 10; echo solved 1 {long} 1 00"),
        format!("echo load 4 10; echo solved {long}0 1 1 00"),
        "echo load 4 10; echo solved 1 1 1 zz; echo cells OK".into(),
        "echo load 4 10; echo solved 1 3 1 0101; echo cells OK".into(),
        "echo load 4 10; echo solved 1 3 1 010900; echo cells OK".into(),
        "echo load 4 10; echo solved 1 0 1 ; echo cells OK".into(),
        "echo load 4 10; echo solved 1 3 1 010100; echo cells CHANGED".into(),
        "echo load 4 10; echo solved 1 3 1 010100".into(),
        "echo load 4 10; echo no-route 1; echo cells OK".into(),
        "echo load 4 10; echo no-route x; echo cells OK; echo output OK".into(),
        "echo load 4; echo no-route 1".into(),
        "echo refused; echo refused 1 2 3".into(),
        "echo load 4 10; echo refused 20; echo cells OK; echo output OK".into(),
    ];
    for script in &answers {
        let found = run_by_script(script, &["plan", &example("chain-from-rows.txt")]);
        is_told(&found, 3, "", script);
    }
}

#[test]
fn a_program_that_says_much_is_heard_out() {
    let real = root().join("target/bin");
    let real = format!("'{}'/\"${{0##*/}}\"", real.display());
    let script = format!("head -c 1000000 /dev/zero >&2; exec {real}");
    for name in ["q.txt", "chain-from-rows.txt"] {
        let found = run_by_script(&script, &["plan", &example(name)]);
        assert_eq!((found.code, found.said.len()), (0, 1_000_000));
        held_to(&format!("plan-{name}"), &found.text());
    }
}

/// It has the tool's standard error, so a run that left it behind would not be over.
#[test]
fn a_program_that_does_not_end_is_ended() {
    let began = Instant::now();
    let words = ["plan", &example("chain-from-rows.txt")];
    is_told(&run_by_script("echo nonsense; exec sleep 60", &words), 3, "nonsense", "it stays");
    assert!(began.elapsed() < Duration::from_secs(30));
}
