//! What a subcommand makes of a query: to standard output, or to the file of `-o`.

use std::ffi::OsStr;
use std::fs;
use std::io::{self, IsTerminal};
use std::os::unix::fs::MetadataExt;
use std::path::Path;

use crate::done::Done;
use crate::failure::Failure;
use crate::output;
use crate::words::Words;

pub const OPTION: &str = "-o";

/// A text, which a terminal may show.
pub fn text(words: &Words, text: String) -> Result<Done, Failure> {
    match out(words)? {
        Some(name) => {
            output::write(name, text.as_bytes())?;
            Ok(Done::default())
        }
        None => Ok(Done::printing(text)),
    }
}

/// Bytes, which are kept from a terminal.
pub fn bytes(words: &Words, bytes: Vec<u8>) -> Result<Done, Failure> {
    match out(words)? {
        Some(name) => {
            output::write(name, &bytes)?;
            Ok(Done::default())
        }
        None if io::stdout().is_terminal() => Err(Failure::Usage(
            "a packed file is not written to a terminal; -o OUT writes it to a file".into(),
        )),
        None => Ok(Done::printing(bytes)),
    }
}

/// The file to write, where there is one. The one that was read is not written over: its names
/// and comments, or its rows, would be lost.
pub fn out(words: &Words) -> Result<Option<&OsStr>, Failure> {
    let Some(out) = words.value(OPTION)?.filter(|out| *out != "-") else {
        return Ok(None);
    };
    if words.plain.iter().any(|file| is_one_file(file, out)) {
        let out = Path::new(out).display();
        return Err(Failure::Usage(format!("{out} is FILE itself, which is not written over")));
    }
    Ok(Some(out))
}

fn is_one_file(file: &OsStr, out: &OsStr) -> bool {
    match (fs::metadata(file), fs::metadata(out)) {
        (Ok(file), Ok(out)) => file.is_file() && (file.dev(), file.ino()) == (out.dev(), out.ino()),
        _ => false,
    }
}
