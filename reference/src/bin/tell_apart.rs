//! `tell_apart PLAN [SEED] [FILES]`: shows that the tests can fail. For each planner that
//! nearly works it prints a query on which the built program `plan` is right and that
//! planner is not, the shortest of FILES random ones. Ends with 1 where there is none, or
//! where `plan` is not right.

use std::process::ExitCode;

use reference::compare::apart::{self, Verdict};
use reference::compare::arguments::{self, Arguments};
use reference::compare::program::{Answering, Feed};
use reference::method::Method;

fn main() -> ExitCode {
    let Some(arguments) = Arguments::of_program(apart::DEFAULT_SEED, apart::DEFAULT_FILES) else {
        eprintln!("usage: tell_apart PLAN [SEED] [FILES]");
        return ExitCode::from(2);
    };
    let mut told = 0;
    let mut all = 0;
    for method in Method::wrong() {
        println!("== {}", method.name());
        let answer = |file: &[u8]| arguments.program.run(file, Feed::Whole);
        match apart::told_apart(method, arguments.seed, arguments.count, answer) {
            Ok(Verdict::Told(mismatch)) => {
                println!("{mismatch}");
                told += 1;
            }
            Ok(Verdict::NotTold) => println!("NOT told apart"),
            Ok(Verdict::NotRight(mismatch)) => println!("NOT RIGHT\n{mismatch}"),
            Err(error) => return arguments::cannot_run(&arguments.program, error),
        }
        all += 1;
    }
    println!("{told} of {all} told apart");
    ExitCode::from(u8::from(told < all))
}
