//! `diff_plan PLAN [SEED] [FILES]`: holds the built program `plan` to the model and the
//! exhaustive search. Ends with 1 and the query at the first mismatch.

use std::process::ExitCode;

use reference::compare::arguments::Arguments;
use reference::compare::plan;

fn main() -> ExitCode {
    let Some(arguments) = Arguments::of_program(plan::DEFAULT_SEED, plan::DEFAULT_FILES) else {
        eprintln!("usage: diff_plan PLAN [SEED] [FILES]");
        return ExitCode::from(2);
    };
    arguments.report("files", plan::compare(&arguments.program, arguments.seed, arguments.count))
}
