//! From the words of a line to what they state.

use reference::limits::{MOST_DIVISOR, MOST_ROWS, MOST_SIZE};

use crate::near::{near, question};
use crate::text::fault::Faults;
use crate::text::reading::{Limits, Read, Reading};
use crate::text::scan::Word;
use crate::text::statement::{Called, Said, Statement};
use crate::text::vocabulary::{is_name, is_number, STATEMENTS};
use crate::wording::quoted;

pub const SITE: &str = "the name or number of a site";
pub const RELATION: &str = "the name or number of a relation";
const JOIN: &str = "the number of a join";
const SIZE: Limits = Limits { what: "a size", least: 0, most: MOST_SIZE };
const ROWS: Limits = Limits { what: "a number of rows", least: 1, most: MOST_ROWS };
const DIVISOR: Limits = Limits { what: "a divisor", least: 1, most: MOST_DIVISOR };

/// What the words of a line state; nothing where there are none.
pub fn statement<'t>(words: &[Word<'t>], faults: &mut Faults) -> Option<Statement<'t>> {
    let (&first, rest) = words.split_first()?;
    let end = words.last()?.end();
    let mut reading = Reading { words: rest, end, faults };
    let said = match begins(first, reading.faults) {
        Some("site") => reading.sites(false),
        Some("sites") => reading.sites(true),
        Some("relation") => reading.relations(false),
        Some("relations") => reading.relations(true),
        Some("join") => reading.join(),
        Some("size") => reading.size(),
        Some("rows") => reading.rows(),
        Some("divisor") => reading.divisor(),
        Some("line") => reading.line(),
        Some("every") => reading.every_line(),
        Some("delivery") => reading.delivery(),
        _ => Said::Unread(words.to_vec()),
    };
    Some(Statement { place: first.place, end, said })
}

/// The statement that the word begins; a near miss is told and taken for it.
fn begins(first: Word, faults: &mut Faults) -> Option<&'static str> {
    if let Some(known) = STATEMENTS.into_iter().find(|&known| known == first.text) {
        return Some(known);
    }
    let meant = near(first.text, STATEMENTS);
    let hint = match meant {
        Some(meant) => question(meant),
        None => format!("one begins with {}", STATEMENTS.join(", ")),
    };
    faults.tell(first.place, format!("{} is no statement; {hint}", quoted(first.text)));
    meant
}

impl<'t> Reading<'_, 't> {
    fn join(&mut self) -> Said<'t> {
        let mut number = None;
        let mut ends = [None, None];
        self.as_far(|words| {
            number = words.join_number()?;
            words.word("links")?;
            ends[0] = words.called(RELATION)?;
            words.word("and")?;
            ends[1] = words.called(RELATION)?;
            words.ends()
        });
        Said::Join { number, ends }
    }

    fn join_number(&mut self) -> Read<Called<'t>> {
        match self.next() {
            Some(word) if is_number(word.text) => {
                self.skip();
                Ok(Some(word))
            }
            _ => self.wrong(JOIN),
        }
    }

    fn size(&mut self) -> Said<'t> {
        let mut relations = None;
        let mut size = None;
        self.as_far(|words| {
            words.word("of")?;
            let set = words.set()?;
            words.word("is")?;
            size = words.number(&SIZE)?;
            relations = Some(set);
            words.ends()
        });
        Said::Size { relations, size }
    }

    /// The relations up to 'is', or to what stands in its place before a number at the end.
    fn set(&mut self) -> Read<Vec<Called<'t>>> {
        let instead = match self.words {
            [before @ .., word, last] if is_number(last.text) && stands_for_is(word.text) => {
                before.len()
            }
            words => words.len(),
        };
        let is = self.words.iter().rposition(|word| word.text == "is");
        let mut set = Vec::new();
        for _ in 0..is.unwrap_or(instead).max(1) {
            set.push(self.called(RELATION)?);
        }
        Ok(set)
    }

    fn rows(&mut self) -> Said<'t> {
        let (mut relation, mut rows) = (None, None);
        self.as_far(|words| {
            words.word("of")?;
            relation = words.called(RELATION)?;
            words.word("are")?;
            rows = words.number(&ROWS)?;
            words.ends()
        });
        Said::Rows { relation, rows }
    }

    fn divisor(&mut self) -> Said<'t> {
        let (mut join, mut divisor) = (None, None);
        self.as_far(|words| {
            words.word("of")?;
            words.word("join")?;
            join = words.join_number()?;
            words.word("is")?;
            divisor = words.number(&DIVISOR)?;
            words.ends()
        });
        Said::Divisor { join, divisor }
    }
}

/// It was probably meant to be 'is'.
fn stands_for_is(word: &str) -> bool {
    !is_number(word) && (!is_name(word) || near(word, ["is"]).is_some())
}
