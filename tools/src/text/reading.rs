//! The words of one statement, taken one after the other.

use crate::near::near;
use crate::text::fault::{Faults, Place};
use crate::text::scan::Word;
use crate::text::statement::Called;
use crate::text::vocabulary::{is_name, is_number, is_taken, NAME_RULE};
use crate::wording::quoted;

/// Nothing is made of the rest of the line; why is told already.
#[derive(Clone, Copy, Debug)]
pub struct Stop;

pub type Read<T> = Result<T, Stop>;

/// A number's name in messages and its limits.
pub struct Limits {
    pub what: &'static str,
    pub least: u64,
    pub most: u64,
}

pub struct Reading<'r, 't> {
    pub words: &'r [Word<'t>],
    /// Behind the last word.
    pub end: Place,
    pub faults: &'r mut Faults,
}

impl<'t> Reading<'_, 't> {
    /// Reads as far as the words can be made out; what stops it is told.
    pub fn as_far(&mut self, read: impl FnOnce(&mut Self) -> Read<()>) {
        let _ = read(self);
    }

    pub fn next(&self) -> Option<Word<'t>> {
        self.words.first().copied()
    }

    pub fn skip(&mut self) {
        self.words = self.words.get(1..).unwrap_or_default();
    }

    /// Tells what was expected in place of the next word.
    pub fn wrong<T>(&mut self, expected: &str) -> Read<T> {
        match self.next() {
            Some(word) => self.unlike(word, expected, ""),
            None => {
                let reason = format!("expected {expected}, found the end of the statement");
                self.faults.tell(self.end, reason);
            }
        }
        Err(Stop)
    }

    /// Tells what was expected in place of the word, and more of it.
    fn unlike(&mut self, word: Word, expected: &str, more: &str) {
        let found = quoted(word.text);
        self.faults.tell(word.place, format!("expected {expected}, found {found}{more}"));
    }

    /// One of these words, by its place among them. A near miss is told and taken for it.
    pub fn one_of(&mut self, expected: &[&str]) -> Read<usize> {
        let wanted: Vec<String> = expected.iter().map(|word| quoted(word)).collect();
        let wanted = wanted.join(" or ");
        let Some(word) = self.next() else {
            return self.wrong(&wanted);
        };
        let same = |meant: &str| expected.iter().position(|&one| one == meant);
        if let Some(found) = same(word.text) {
            self.skip();
            return Ok(found);
        }
        let meant = near(word.text, expected.iter().copied()).and_then(same);
        let stopped = self.wrong(&wanted);
        match meant {
            Some(found) if !is_taken(word.text) => {
                self.skip();
                Ok(found)
            }
            _ => stopped,
        }
    }

    pub fn word(&mut self, expected: &str) -> Read<()> {
        self.one_of(&[expected]).map(|_| ())
    }

    /// That no word is left.
    pub fn ends(&mut self) -> Read<()> {
        match self.next() {
            None => Ok(()),
            Some(_) => self.wrong("the end of the statement"),
        }
    }

    /// A number within its limits; one that is not is told, and nothing.
    pub fn number(&mut self, limits: &Limits) -> Read<Option<u64>> {
        let Limits { what, least, most } = limits;
        let expected = format!("{what} from {least} to {most}");
        let Some(word) = self.next().filter(|word| !is_taken(word.text)) else {
            return self.wrong(&expected);
        };
        self.skip();
        if let Some(written) = self.thousands(word) {
            let whole = written.replace(',', "");
            let reason = format!("a comma counts as a blank: write {whole} for {written}");
            self.faults.tell(word.place, reason);
            return Ok(None);
        }
        let value = if is_number(word.text) { word.text.parse().ok() } else { None };
        let value = value.filter(|value| (least..=most).contains(&value));
        if value.is_none() {
            let odd = word.text.starts_with(|first: char| first.is_ascii_digit())
                && !is_number(word.text);
            let more = if odd { "; numbers are whole and have digits only" } else { "" };
            self.unlike(word, &expected, more);
        }
        Ok(value)
    }

    /// The number as it is written, where commas part its thousands.
    fn thousands(&mut self, first: Word) -> Option<String> {
        let mut written = first.text.to_string();
        let leading = is_number(first.text) && first.text.len() <= 3;
        let group = |word: &Word| {
            leading && word.after_comma && word.text.len() == 3 && is_number(word.text)
        };
        while let Some(word) = self.next().filter(group) {
            written.push(',');
            written.push_str(word.text);
            self.skip();
        }
        (written.len() > first.text.len()).then_some(written)
    }

    /// A site, a relation or a join, by the word for it; one that can be neither name nor number
    /// is told, and nothing.
    pub fn called(&mut self, what: &str) -> Read<Called<'t>> {
        let Some(word) = self.next() else {
            return self.wrong(what);
        };
        if is_taken(word.text) {
            self.unlike(word, what, ", a word of the statements");
            return Err(Stop);
        }
        self.skip();
        if is_number(word.text) || is_name(word.text) {
            return Ok(Some(word));
        }
        self.unlike(word, what, NAME_RULE);
        Ok(None)
    }
}
