//! `fanchuki sizes`: a query with rows as a text with the sizes that come of them.

use std::ffi::OsString;

use reference::stated::{Form, Stated};
use reference::text;

use crate::commands::Command;
use crate::done::Done;
use crate::failure::Failure;
use crate::given::{self, Given};
use crate::words::Words;
use crate::written;

pub const COMMAND: Command = Command { name: "sizes", help: HELP, run };

const HELP: &str = "\
prints a query with rows as a text with the sizes worked out

usage: fanchuki sizes FILE [--rows] [-o OUT]

  --rows   a packed FILE has row counts and divisors in place of sizes
  -o OUT   writes the text to OUT, which is not FILE; without it, or with -, to standard output

Names are kept, comments are not. A query that has its sizes already is refused.
";

fn run(words: &[OsString]) -> Result<Done, Failure> {
    let words = Words::take(words, &["--rows"], &[written::OPTION])?;
    let [file] = words.just("the FILE")?;
    let given = Given::read(file, words.has("--rows"))?;
    let stated = given.stated.map_err(|refused| Failure::Refused(refused.to_string()))?;
    match stated.form() {
        Form::Sizes => Err(Failure::Refused(format!(
            "{} has its sizes already, and no rows",
            given::shown(file)
        ))),
        Form::Rows => {
            let with_sizes = Stated::from(stated.query);
            written::text(&words, text::print(&with_sizes, &given.names))
        }
    }
}
