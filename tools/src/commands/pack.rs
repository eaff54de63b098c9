//! `fanchuki pack`: a text to its packed file.

use std::ffi::OsString;

use reference::encode;

use crate::commands::Command;
use crate::done::Done;
use crate::failure::Failure;
use crate::given;
use crate::text;
use crate::words::Words;
use crate::written;

pub const COMMAND: Command = Command { name: "pack", help: HELP, run };

const HELP: &str = "\
packs a text to the bytes of its query file

usage: fanchuki pack FILE [-o OUT]

  -o OUT   writes the packed file to OUT, which is not FILE; without it, or with -, to
           standard output, which must be no terminal

Standard error tells which load takes the file: 'a file for load', or 'a file for load from
rows' where the text has rows and divisors in place of sizes. A FILE that is packed already is
not taken.
";

fn run(words: &[OsString]) -> Result<Done, Failure> {
    let words = Words::take(words, &[], &[written::OPTION])?;
    let [file] = words.just("the FILE")?;
    let bytes = given::read(file)?;
    let shown = given::shown(file);
    if given::is_packed(&bytes) {
        return Err(match given::not_a_text(&bytes) {
            Some(why) => Failure::Refused(format!("{shown}: {why}")),
            None => Failure::Usage(format!("{shown} is packed already")),
        });
    }
    let named = text::parse(&text::decoded(&bytes, &shown)?)
        .map_err(|faults| text::refused(&shown, &bytes, &faults))?;
    let done = written::bytes(&words, encode::encode_stated(&named.stated))?;
    let load = named.stated.form().load_name();
    Ok(Done { noted: format!("a file for {load}\n"), ..done })
}
