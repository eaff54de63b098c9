//! `fanchuki plan`: the cheapest plan as a listing.

use std::ffi::OsString;

use reference::names::Names;
use reference::query::Query;
use reference::stated::Form;

use crate::commands::Command;
use crate::done::Done;
use crate::failure::Failure;
use crate::given::Given;
use crate::listing;
use crate::proved::calls::Solved;
use crate::proved::loaded::{self, Loaded};
use crate::proved::programs;
use crate::words::Words;

pub const COMMAND: Command = Command { name: "plan", help: HELP, run };

const HELP: &str = "\
prints the cheapest plan, a line for each step

usage: fanchuki plan FILE [--rows]

  --rows   a packed FILE has row counts and divisors in place of sizes

The first line has the number of steps, the cost and the trials; then each step comes as
'load RELATION', 'send SITE' or 'join NUMBER', by the names that the text gives. Sends in a row
take one result along a route. Where no plan is allowed the one line 'no route trials N' is
printed.
";

fn run(words: &[OsString]) -> Result<Done, Failure> {
    let words = Words::take(words, &["--rows"], &[])?;
    let [file] = words.just("the FILE")?;
    let given = Given::read(file, words.has("--rows"))?;
    let (query, names, solved) = match given.form {
        Form::Sizes => by_plan(given)?,
        Form::Rows => by_calls(given)?,
    };
    let code = u8::from(matches!(solved, Solved::NoRoute { .. }));
    Ok(Done { code, ..Done::printing(listing::solved(&query, &names, &solved)?) })
}

/// By the proved program `plan`, which takes ordinary files.
fn by_plan(given: Given) -> Result<(Query, Names, Solved), Failure> {
    let query = |given: Given| given.stated.map(|stated| (stated.query, given.names));
    match (programs::plan(&given.file)?, query(given)) {
        (Ok(solved), Ok((query, names))) => {
            loaded::agreed(&query, &solved)?;
            Ok((query, names, solved))
        }
        (Err(refused), Err(words)) if refused.number == words.number => {
            Err(Failure::Refused(words.to_string()))
        }
        (proved, own) => Err(loaded::otherwise(proved.err(), own.err())),
    }
}

/// By a load from rows and a solve of `calls`.
fn by_calls(given: Given) -> Result<(Query, Names, Solved), Failure> {
    let mut loaded = Loaded::load(given)?;
    let solved = loaded.solve()?;
    Ok((loaded.query, loaded.names, solved))
}
