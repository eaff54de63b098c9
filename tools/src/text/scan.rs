//! A text's lines, and the words of a line with their places.

use std::iter;

use crate::text::fault::Place;

const BYTE_ORDER_MARK: char = '\u{feff}';

/// Words stand apart by blanks, and a comma counts as a blank.
#[derive(Clone, Copy, Debug)]
pub struct Word<'t> {
    pub text: &'t str,
    pub place: Place,
    /// One comma and nothing else stands between it and the word before.
    pub after_comma: bool,
}

impl Word<'_> {
    /// Just behind its last character.
    pub fn end(&self) -> Place {
        Place { column: self.place.column + self.text.chars().count(), ..self.place }
    }
}

/// The text behind a byte order mark, where it begins with one.
pub fn without_mark(text: &str) -> &str {
    text.strip_prefix(BYTE_ORDER_MARK).unwrap_or(text)
}

pub fn lines(text: &str) -> impl Iterator<Item = &str> {
    without_mark(text).lines()
}

/// The words of the line of this number, up to a comment.
pub fn words(number: usize, line: &str) -> Vec<Word<'_>> {
    let statement = line.split('#').next().unwrap_or_default();
    let closing = iter::once((statement.len(), ' '));
    let mut words = Vec::new();
    let mut begun: Option<(usize, usize)> = None;
    let mut last_end = None;
    for (column, (offset, character)) in (1..).zip(statement.char_indices().chain(closing)) {
        let apart = character == ',' || character.is_whitespace();
        match begun {
            None if !apart => begun = Some((offset, column)),
            Some((from, column)) if apart => {
                let after_comma = last_end.is_some_and(|end| &statement[end..from] == ",");
                let place = Place { line: number, column };
                words.push(Word { text: &statement[from..offset], place, after_comma });
                last_end = Some(offset);
                begun = None;
            }
            _ => {}
        }
    }
    words
}
