//! The arguments of the programs here, and how the comparing ones end.

use std::env;
use std::fmt::Display;
use std::io;
use std::process::ExitCode;

use crate::compare::program::Program;
use crate::compare::tally::Tally;
use crate::method::Method;

/// PROGRAM [SEED] [COUNT] of a command line; what is counted, each program says.
pub struct Arguments {
    pub program: Program,
    pub seed: u64,
    pub count: u64,
}

impl Arguments {
    pub fn of_program(seed: u64, count: u64) -> Option<Arguments> {
        let program = Program::new(env::args_os().nth(1)?);
        let (seed, count) = seed_and_count(2, seed, count)?;
        Some(Arguments { program, seed, count })
    }

    /// Says what was covered, or shows the mismatch and ends with 1.
    pub fn report(
        &self,
        cases: &str,
        result: io::Result<Result<Tally, Box<impl Display>>>,
    ) -> ExitCode {
        match result {
            Ok(result) => report(cases, self.seed, self.count, result),
            Err(error) => cannot_run(&self.program, error),
        }
    }
}

/// A seed and a count from a place of the command line on, if they are given. No cases
/// would pass whatever is tested, so 0 is no count; and nothing may stand behind it.
pub fn seed_and_count(place: usize, seed: u64, count: u64) -> Option<(u64, u64)> {
    let number = |place: usize, default: u64| match env::args().nth(place) {
        Some(text) => text.parse().ok(),
        None => Some(default),
    };
    let numbers = (number(place, seed)?, number(place + 1, count)?);
    (numbers.1 > 0 && env::args_os().len() <= place + 2).then_some(numbers)
}

/// The method that the command line names, that of the rules if it names none.
pub fn method() -> Option<Method> {
    match env::args().nth(1) {
        Some(name) => Method::from_name(&name),
        None => Some(Method::Rules),
    }
}

/// Says what was covered, or shows the mismatch and ends with 1.
pub fn report(
    cases: &str,
    seed: u64,
    count: u64,
    result: Result<Tally, Box<impl Display>>,
) -> ExitCode {
    match result {
        Ok(tally) => {
            print!("{tally}");
            println!("no mismatch: seed {seed}, {count} random {cases}");
            ExitCode::SUCCESS
        }
        Err(mismatch) => {
            println!("MISMATCH (seed {seed})\n{mismatch}");
            ExitCode::FAILURE
        }
    }
}

/// Ends with 2: nothing was compared.
pub fn cannot_run(program: &Program, error: io::Error) -> ExitCode {
    eprintln!("{}: {error}", program.path.to_string_lossy());
    ExitCode::from(2)
}
