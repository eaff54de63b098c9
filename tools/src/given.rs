//! A query as the user gives it: a text or a packed file, told apart by what is in it.

use std::ffi::OsStr;
use std::fs::File;
use std::io::{self, ErrorKind, Read};
use std::path::Path;

use reference::names::Names;
use reference::stated::{Form, Stated};
use reference::{decode, encode};

use crate::failure::Failure;
use crate::packed::refused::RefusedFile;
use crate::text;

/// A file of more bytes is neither a query nor a plan that anybody means.
const MOST_BYTES: u64 = 1 << 20;

/// A query's packed file, what it states, and the names that a text gave.
#[derive(Clone, Debug)]
pub struct Given {
    pub file: Vec<u8>,
    pub form: Form,
    pub names: Names,
    /// Where the file is refused: the number and the words for it.
    pub stated: Result<Stated, RefusedFile>,
}

impl Given {
    /// From the file of that name, `-` for standard input; `rows` says of a packed file that it
    /// has row counts.
    pub fn read(name: &OsStr, rows: bool) -> Result<Given, Failure> {
        let bytes = read(name)?;
        if is_packed(&bytes) {
            return Ok(Given::packed(bytes, if rows { Form::Rows } else { Form::Sizes }));
        }
        let named = text::parse(&text::decoded(&bytes, &shown(name))?)
            .map_err(|faults| text::refused(&shown(name), &bytes, &faults))?;
        if rows && named.stated.form() == Form::Sizes {
            return Err(Failure::Usage("--rows is for a packed file, and this is a text".into()));
        }
        let file = encode::encode_stated(&named.stated);
        Ok(Given { file, form: named.stated.form(), names: named.names, stated: Ok(named.stated) })
    }

    pub fn packed(file: Vec<u8>, form: Form) -> Given {
        let stated = decode::decode(&file, form);
        let stated = stated.map_err(|refusal| RefusedFile::find(&file, form, refusal));
        Given { file, form, names: Names::default(), stated }
    }
}

/// A packed file has bytes that no text has: control bytes other than tab and line end.
pub fn is_packed(bytes: &[u8]) -> bool {
    bytes.iter().any(in_no_text)
}

fn in_no_text(byte: &u8) -> bool {
    *byte < b' ' && !b"\t\n\r\x0c".contains(byte)
}

/// Why a file is taken for a packed one that begins as none does and may be meant as a text.
pub fn not_a_text(bytes: &[u8]) -> Option<String> {
    if bytes.starts_with(b"\xff\xfe") || bytes.starts_with(b"\xfe\xff") {
        return Some("it begins like a text in UTF-16, and a text is in UTF-8".into());
    }
    // A statement and a comment begin so.
    bytes.first().filter(|byte| byte.is_ascii_graphic())?;
    let offset = bytes.iter().position(in_no_text)?;
    let (before, rest) = bytes.split_at(offset);
    let line = 1 + before.iter().filter(|byte| **byte == b'\n').count();
    let byte = rest.first()?;
    Some(format!("it is no text, since line {line} has the byte {byte:#04x}"))
}

/// All bytes of the file of that name, or of standard input.
pub fn read(name: &OsStr) -> Result<Vec<u8>, Failure> {
    let told = |error: io::Error| format!("{}: {error}", shown(name));
    let mut bytes = Vec::new();
    let read = if name == "-" {
        io::stdin().lock().take(MOST_BYTES + 1).read_to_end(&mut bytes)
    } else {
        let file = File::open(name).map_err(|error| Failure::Usage(told(error)))?;
        file.take(MOST_BYTES + 1).read_to_end(&mut bytes)
    };
    read.map_err(|error| match error.kind() {
        ErrorKind::IsADirectory => Failure::Usage(told(error)),
        _ => Failure::Fault(told(error)),
    })?;
    if bytes.len() as u64 > MOST_BYTES {
        return Err(Failure::Refused(format!("{}: over {MOST_BYTES} bytes", shown(name))));
    }
    Ok(bytes)
}

/// The file's name as messages tell it.
pub fn shown(name: &OsStr) -> String {
    if name == "-" {
        "standard input".into()
    } else if name.is_empty() {
        "''".into()
    } else {
        Path::new(name).display().to_string()
    }
}
