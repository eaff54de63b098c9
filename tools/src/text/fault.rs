//! What is wrong with a text, and where: each fault is shown with its line and a caret below the
//! column.

use std::fmt::{self, Write};

use crate::failure::Failure;
use crate::text::scan;
use crate::width::is_wide;
use crate::wording::is_unseen;

/// More faults are counted only.
const MOST_SHOWN: usize = 50;

/// A longer line is cut to so many characters around the column.
const WIDTH: usize = 96;

/// Room before the column of a line that is cut.
const BEFORE: usize = 60;

/// A line and a column of a text, both from 1; a column counts characters.
#[derive(Clone, Copy, Debug, PartialEq, Eq, PartialOrd, Ord)]
pub struct Place {
    pub line: usize,
    pub column: usize,
}

#[derive(Clone, Debug, PartialEq, Eq)]
pub struct Fault {
    pub place: Place,
    pub reason: String,
}

impl fmt::Display for Fault {
    fn fmt(&self, f: &mut fmt::Formatter) -> fmt::Result {
        write!(f, "{}:{}: {}", self.place.line, self.place.column, self.reason)
    }
}

/// All that were found so far.
#[derive(Debug, Default)]
pub struct Faults(Vec<Fault>);

impl Faults {
    pub fn tell(&mut self, place: Place, reason: impl Into<String>) {
        self.0.push(Fault { place, reason: reason.into() });
    }

    pub fn is_empty(&self) -> bool {
        self.0.is_empty()
    }

    /// In order of place.
    pub fn in_order(mut self) -> Vec<Fault> {
        self.0.sort_by_key(|fault| fault.place);
        self.0
    }
}

/// The text of a file's bytes, which has this name.
pub fn decoded(bytes: &[u8], name: &str) -> Result<String, Failure> {
    std::str::from_utf8(bytes).map(str::to_string).map_err(|error| {
        let (before, rest) = bytes.split_at(error.valid_up_to());
        let before = String::from_utf8_lossy(before);
        let line = before.matches('\n').count() + 1;
        let last = before.rsplit('\n').next().unwrap_or_default();
        let last = if line == 1 { scan::without_mark(last) } else { last };
        let place = Place { line, column: last.chars().count() + 1 };
        let byte = rest.first().copied().unwrap_or_default();
        let reason = format!("the byte {byte:#04x} is not UTF-8, and a text is");
        refused(name, bytes, &[Fault { place, reason }])
    })
}

/// All faults of a file's text, in order.
pub fn refused(name: &str, bytes: &[u8], faults: &[Fault]) -> Failure {
    let text = String::from_utf8_lossy(bytes);
    let mut lines = (1..).zip(scan::lines(&text)).peekable();
    let mut shown = String::new();
    for fault in faults.iter().take(MOST_SHOWN) {
        put(&mut shown, format_args!("{name}:{fault}"));
        while lines.next_if(|&(number, _)| number < fault.place.line).is_some() {}
        if let Some((_, line)) = lines.peek().filter(|&&(number, _)| number == fault.place.line) {
            pointed(&mut shown, line, fault.place.column);
        }
    }
    let more = faults.len().saturating_sub(MOST_SHOWN);
    match (faults.len(), more) {
        (0 | 1, _) => {}
        (count, 0) => put(&mut shown, format_args!("{count} faults")),
        (count, _) => {
            put(&mut shown, format_args!("{count} faults, of which {MOST_SHOWN} are shown"))
        }
    }
    shown.truncate(shown.trim_end().len());
    Failure::Refused(shown)
}

/// The line, and below it a caret under the column.
fn pointed(shown: &mut String, line: &str, column: usize) {
    let characters: Vec<char> = line.chars().map(visible).collect();
    let from = match characters.len() > WIDTH {
        true => (column - 1).saturating_sub(BEFORE),
        false => 0,
    };
    let window: String = characters.iter().skip(from).take(WIDTH).collect();
    let start = if from > 0 { ".." } else { "" };
    let end = if from + WIDTH < characters.len() { ".." } else { "" };
    put(shown, format_args!("  {start}{window}{end}"));
    // A wide character's blank is as wide.
    let blank = |&character: &char| match character {
        '\t' => '\t',
        wide if is_wide(wide) => '\u{3000}',
        _ => ' ',
    };
    let before: String = characters.iter().skip(from).take(column - 1 - from).map(blank).collect();
    put(shown, format_args!("  {}{before}^", " ".repeat(start.len())));
}

/// What can't be seen gives way to a mark.
fn visible(character: char) -> char {
    if character != '\t' && is_unseen(character) {
        char::REPLACEMENT_CHARACTER
    } else {
        character
    }
}

fn put(shown: &mut String, line: fmt::Arguments) {
    writeln!(shown, "{line}").expect("a string takes all");
}
