//! `diff_c [SEED] [FILES]`: holds the C call of the linked archive to the model, output
//! bytes and guards included. Ends with 1 and the query in hex at the first mismatch.

use std::process::ExitCode;

use diff_c::fanchuki_plan;
use reference::compare::arguments;
use reference::compare::c_call;

fn main() -> ExitCode {
    let numbers = arguments::seed_and_count(1, c_call::DEFAULT_SEED, c_call::DEFAULT_COUNT);
    let Some((seed, count)) = numbers else {
        eprintln!("usage: diff_c [SEED] [FILES]");
        return ExitCode::from(2);
    };
    arguments::report("files", seed, count, c_call::compare(fanchuki_plan, seed, count))
}
