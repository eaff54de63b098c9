//! `fanchuki unpack`: a packed file to its text.

use std::ffi::OsString;
use std::str;

use reference::names::Names;
use reference::stated::Form;
use reference::text;

use crate::commands::Command;
use crate::done::Done;
use crate::failure::Failure;
use crate::given::{self, Given};
use crate::words::Words;
use crate::written;

pub const COMMAND: Command = Command { name: "unpack", help: HELP, run };

const HELP: &str = "\
unpacks a query file to a text that packs to the same bytes

usage: fanchuki unpack FILE [--rows] [-o OUT]

  --rows   FILE has row counts and divisors in place of sizes
  -o OUT   writes the text to OUT, which is not FILE; without it, or with -, to standard output

A file that is refused is told with the number of the refusal and the field that it is for: its
section, its offset in bytes from 0, its value and what must stand there. A FILE that is a text
already is not taken.
";

fn run(words: &[OsString]) -> Result<Done, Failure> {
    let words = Words::take(words, &["--rows"], &[written::OPTION])?;
    let [file] = words.just("the FILE")?;
    let bytes = given::read(file)?;
    let is_text = !given::is_packed(&bytes) && str::from_utf8(&bytes).is_ok();
    if is_text && !bytes.is_empty() {
        return Err(Failure::Usage(format!("{} is a text already", given::shown(file))));
    }
    let form = if words.has("--rows") { Form::Rows } else { Form::Sizes };
    match Given::packed(bytes, form).stated {
        Ok(stated) => written::text(&words, text::print(&stated, &Names::default())),
        Err(refused) => Err(Failure::Refused(refused.to_string())),
    }
}
