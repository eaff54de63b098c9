//! Statements of one kind, each of which is made once: again and not at all are told.

use std::collections::BTreeMap;

use crate::text::fault::{Faults, Place};
use crate::wording::list_some;

/// So many of what is missing are named.
const MOST_NAMED: usize = 5;

/// Statements of one kind in words.
pub struct Words {
    /// As 'no size of', before one that is missing.
    pub no_one: &'static str,
    pub no_several: &'static str,
    pub stand: &'static str,
    /// How to state them, told where there is none at all.
    pub expected: &'static str,
}

pub const SIZES: Words = Words {
    no_one: "no size of",
    no_several: "no sizes of",
    stand: "sizes stand",
    expected: "expected 'size of .. is N' for each connected set, or rows and divisors",
};
pub const ROWS: Words = Words {
    no_one: "no rows of",
    no_several: "no rows of",
    stand: "rows stand",
    expected: "expected 'rows of R are N'",
};
pub const DIVISORS: Words = Words {
    no_one: "no divisor of",
    no_several: "no divisors of",
    stand: "divisors stand",
    expected: "expected 'divisor of join E is N'",
};
pub const LINES: Words = Words {
    no_one: "no line",
    no_several: "no lines",
    stand: "lines stand",
    expected: "expected 'line A to B ..' or 'every line ..'",
};

/// By what they are about; a value is nothing where it was faulty.
#[derive(Clone, Debug)]
pub struct Once<K, V> {
    values: BTreeMap<K, (Option<V>, usize)>,
    /// How many are not among the values: it is not known what they were about.
    faulty: usize,
    /// Where the first and the last stand.
    stand: Option<(Place, Place)>,
}

impl<K: Ord, V: Copy> Once<K, V> {
    pub fn new() -> Once<K, V> {
        Once { values: BTreeMap::new(), faulty: 0, stand: None }
    }

    /// One more statement; where it says again what another did, that is told at the place.
    pub fn take(
        &mut self,
        statement: Place,
        key: Option<K>,
        value: Option<V>,
        again: impl FnOnce(&K) -> (Place, String),
        faults: &mut Faults,
    ) {
        let first = self.stand.map_or(statement, |(first, _)| first);
        self.stand = Some((first, statement));
        let Some(key) = key else {
            self.withdraw();
            return;
        };
        if let Some((_, line)) = self.values.get(&key) {
            let (place, what) = again(&key);
            faults.tell(place, format!("{what} there already, in line {line}"));
            self.withdraw();
            return;
        }
        self.values.insert(key, (value, statement.line));
    }

    pub fn get(&self, key: &K) -> Option<V> {
        self.values.get(key).and_then(|&(value, _)| value)
    }

    pub fn has(&self, key: &K) -> bool {
        self.values.contains_key(key)
    }

    /// The keys that have no statement, at the last one of the kind or else at the end; none
    /// where the faulty statements may be all of theirs.
    pub fn tell_missing(
        &self,
        words: &Words,
        keys: impl IntoIterator<Item = K>,
        called: impl Fn(K) -> String,
        end: Place,
        faults: &mut Faults,
    ) {
        let missing: Vec<String> =
            keys.into_iter().filter(|key| !self.has(key)).map(called).collect();
        let no = match missing.len() {
            count if count <= self.faulty => return,
            1 => words.no_one,
            _ => words.no_several,
        };
        let shown = list_some(&missing, MOST_NAMED);
        let (place, hint) = match self.stand {
            Some((first, last)) => (last, format!("{} in {}", words.stand, lines(first, last))),
            None => (end, words.expected.to_string()),
        };
        faults.tell(place, format!("{no} {shown}; {hint}"));
    }

    pub fn is_empty(&self) -> bool {
        self.stand.is_none()
    }

    /// One whose statement is found not to hold.
    pub fn withdraw(&mut self) {
        self.faulty = self.faulty.saturating_add(1);
    }

    /// A statement that may have been meant for all.
    pub fn lost(&mut self) {
        self.faulty = usize::MAX;
    }
}

fn lines(first: Place, last: Place) -> String {
    match first.line == last.line {
        true => format!("line {}", first.line),
        false => format!("lines {} to {}", first.line, last.line),
    }
}
