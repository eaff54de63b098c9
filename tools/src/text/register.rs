//! The sites, relations and joins that a text declares, and which of them a word calls.

use std::collections::{BTreeMap, HashMap, HashSet};

use reference::limits::{MOST_RELATIONS, MOST_SITES};

use crate::text::fault::{Faults, Place};
use crate::text::ordered::Ordered;
use crate::text::scan::Word;
use crate::text::statement::{Called, Which};
use crate::text::vocabulary::is_number;
use crate::wording::quoted;

#[derive(Clone, Copy, Debug, PartialEq, Eq, PartialOrd, Ord, Hash)]
pub enum Kind {
    Site,
    Relation,
    Join,
}

pub struct Register<'t> {
    sites: Ordered,
    relations: Ordered,
    joins: Ordered,
    /// By name: the number, and the line that gave the name.
    pub named: HashMap<(Kind, &'t str), (usize, usize)>,
    /// Whether a line could not be read at all, and the words of such lines.
    pub unread: bool,
    pub unread_words: HashSet<&'t str>,
    /// Words that call nothing: the first place, and the lines that have it again.
    pub unknown: BTreeMap<(Kind, &'t str), (Place, Vec<usize>)>,
}

impl<'t> Register<'t> {
    pub fn new() -> Register<'t> {
        Register {
            sites: Ordered::new("site", MOST_SITES),
            relations: Ordered::new("relation", MOST_RELATIONS),
            joins: Ordered::new("join", MOST_RELATIONS - 1),
            named: HashMap::new(),
            unread: false,
            unread_words: HashSet::new(),
            unknown: BTreeMap::new(),
        }
    }

    pub fn of(&self, kind: Kind) -> &Ordered {
        match kind {
            Kind::Site => &self.sites,
            Kind::Relation => &self.relations,
            Kind::Join => &self.joins,
        }
    }

    fn of_mut(&mut self, kind: Kind) -> &mut Ordered {
        match kind {
            Kind::Site => &mut self.sites,
            Kind::Relation => &mut self.relations,
            Kind::Join => &mut self.joins,
        }
    }

    /// How many of a kind there are, where that is beyond doubt.
    pub fn sure(&self, kind: Kind) -> Option<usize> {
        let ordered = self.of(kind);
        (ordered.sure && !self.unread).then_some(ordered.count())
    }

    pub fn leave_unread(&mut self, words: &[Word<'t>]) {
        for kind in [Kind::Site, Kind::Relation, Kind::Join] {
            self.of_mut(kind).lost();
        }
        self.unread = true;
        self.unread_words.extend(words.iter().map(|word| word.text));
    }

    /// The numbers of those that a statement declares, its terms being for all of them.
    pub fn declare(
        &mut self,
        kind: Kind,
        which: &Which<'t>,
        place: Place,
        faults: &mut Faults,
    ) -> Vec<usize> {
        match which {
            Which::List(list) => {
                list.iter().filter_map(|&one| self.declare_one(kind, one, place, faults)).collect()
            }
            Which::FromTo(first, last) => self.of_mut(kind).span([*first, *last], faults),
            Which::Unread => {
                self.of_mut(kind).lost();
                Vec::new()
            }
        }
    }

    fn declare_one(
        &mut self,
        kind: Kind,
        called: Called<'t>,
        place: Place,
        faults: &mut Faults,
    ) -> Option<usize> {
        match called {
            None => {
                self.of_mut(kind).doubted = true;
                Some(self.of_mut(kind).next(place, faults))
            }
            Some(word) if is_number(word.text) => self.of_mut(kind).numbered(word, faults),
            Some(word) => self.name(kind, word, faults),
        }
    }

    /// A name is given once among sites and relations together.
    fn name(&mut self, kind: Kind, word: Word<'t>, faults: &mut Faults) -> Option<usize> {
        for known in [Kind::Site, Kind::Relation] {
            if let Some((number, line)) = self.named.get(&(known, word.text)) {
                let (name, one) = (quoted(word.text), self.of(known).one);
                let reason =
                    format!("{name} is the name of {one} {number} already, in line {line}");
                faults.tell(word.place, reason);
                self.of_mut(kind).doubted = true;
            }
        }
        if self.named.contains_key(&(kind, word.text)) {
            self.of_mut(kind).again();
            return None;
        }
        let number = self.of_mut(kind).next(word.place, faults);
        self.named.insert((kind, word.text), (number, word.place.line));
        Some(number)
    }
}
