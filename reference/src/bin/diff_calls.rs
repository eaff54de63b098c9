//! `diff_calls CALLS [SEED] [LISTS]`: holds the built program `calls` to the model on
//! fixed lists of calls and on LISTS random ones, its room to its own load and solve on every
//! tree of up to seven relations, and its solve to itself with more cells on queries with ties.
//! Ends with 1 and the script at the first mismatch.

use std::process::ExitCode;

use reference::compare::arguments::Arguments;
use reference::compare::calls;

fn main() -> ExitCode {
    let Some(arguments) = Arguments::of_program(calls::DEFAULT_SEED, calls::DEFAULT_LISTS) else {
        eprintln!("usage: diff_calls CALLS [SEED] [LISTS]");
        return ExitCode::from(2);
    };
    arguments.report(
        "lists of calls",
        calls::compare(&arguments.program, arguments.seed, arguments.count),
    )
}
