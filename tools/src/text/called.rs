//! Which site, relation or join a word calls, and what is said of one that calls none.

use reference::limits::MOST_RELATIONS;
use reference::names::Names;

use crate::near::{near, question};
use crate::text::fault::Faults;
use crate::text::ordered::Ordered;
use crate::text::register::{Kind, Register};
use crate::text::scan::Word;
use crate::text::vocabulary::is_number;
use crate::wording::{list, list_some, number, quoted};

/// So many lines are told that have such a word again.
const MOST_LINES: usize = 4;

impl<'t> Register<'t> {
    /// The number of what the word calls. A word that calls nothing is kept, to be told of when
    /// all are known.
    pub fn find(&mut self, kind: Kind, word: Word<'t>) -> Option<usize> {
        let number = if is_number(word.text) {
            word.text.parse().ok().filter(|&number| number < self.of(kind).count())
        } else {
            self.named.get(&(kind, word.text)).map(|&(number, _)| number)
        };
        if number.is_none() && !self.may_be_meant(kind, word) {
            let entry = self.unknown.entry((kind, word.text));
            let (first, again) = entry.or_insert((word.place, Vec::new()));
            if *first != word.place {
                again.push(word.place.line);
            }
        }
        number
    }

    /// Whether it may be declared where the text is faulty.
    fn may_be_meant(&self, kind: Kind, word: Word) -> bool {
        let none = match kind {
            // One that the relations need is told of with them.
            Kind::Join => {
                let relations = self.of(Kind::Relation).count();
                relations == 0 || word.text.parse().is_ok_and(|join: usize| join < relations - 1)
            }
            _ => self.of(kind).count() == 0,
        };
        let unread = if is_number(word.text) {
            self.sure(kind).is_none()
        } else {
            self.unread_words.contains(word.text)
        };
        none || unread
    }

    pub fn names(&self) -> Names {
        Names { sites: self.names_of(Kind::Site), relations: self.names_of(Kind::Relation) }
    }

    /// By number, within the limit; none at all where none has one.
    fn names_of(&self, kind: Kind) -> Vec<Option<String>> {
        let mut names = vec![None; self.of(kind).count().min(MOST_RELATIONS)];
        for (&(known, name), &(number, _)) in &self.named {
            if let Some(place) = names.get_mut(number).filter(|_| known == kind) {
                *place = Some(name.to_string());
            }
        }
        if names.iter().all(Option::is_none) {
            names.clear();
        }
        names
    }

    /// Each word that calls nothing, where it stands first. One that comes near no name is left
    /// out where the name may stand in a declaration that is faulty.
    pub fn tell_unknown(&self, names: &Names, faults: &mut Faults) {
        for (&(kind, word), (place, again)) in &self.unknown {
            let ordered = self.of(kind);
            let (own, others, other) = match kind {
                Kind::Site => (&names.sites[..], &names.relations[..], "relation"),
                Kind::Relation => (&names.relations[..], &names.sites[..], "site"),
                Kind::Join => (&[][..], &[][..], "join"),
            };
            let hint = match near(word, own.iter().flatten().map(String::as_str)) {
                Some(meant) => question(meant),
                None if ordered.doubted || !ordered.sure => continue,
                None if others.iter().any(|name| name.as_deref() == Some(word)) => {
                    format!("that is a {other}")
                }
                None => there_are(ordered, word, own),
            };
            let shown = if is_number(word) { number(word) } else { quoted(word) };
            let also = also(place.line, again);
            faults.tell(*place, format!("no {} {shown}; {hint}{also}", ordered.one));
        }
    }
}

/// The other lines that have the word.
fn also(first: usize, again: &[usize]) -> String {
    let mut lines: Vec<usize> = again.iter().copied().filter(|&line| line != first).collect();
    lines.dedup();
    let shown: Vec<String> = lines.iter().map(usize::to_string).collect();
    match shown.len() {
        0 => String::new(),
        1 => format!(" (also in line {})", list(&shown)),
        _ => format!(" (also in lines {})", list_some(&shown, MOST_LINES)),
    }
}

/// What there is, by names where the word is one.
fn there_are(ordered: &Ordered, word: &str, names: &[Option<String>]) -> String {
    let (one, count) = (ordered.one, ordered.count());
    let named = !is_number(word) && names.iter().any(Option::is_some);
    let called = |(number, name): (usize, &Option<String>)| match name {
        Some(name) => name.clone(),
        None => number.to_string(),
    };
    let shown: Vec<String> = names.iter().enumerate().map(called).collect();
    match count {
        0 => format!("there is no {one}"),
        1 if named => format!("the one {one} is {}", list(&shown)),
        1 => format!("the one {one} is 0"),
        _ if named => format!("the {one}s are {}", list(&shown)),
        _ => format!("the {one}s are 0 to {}", count - 1),
    }
}
