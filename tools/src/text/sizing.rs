//! What a text tells of sizes: each of them, or the rows and divisors in their place.

use reference::names::Names;
use reference::sets::{self, Set};
use reference::stated::Form;

use crate::text::fault::{Faults, Place};
use crate::text::once::Once;

/// A number and the place of the word for it.
type Found = Option<(usize, Place)>;

pub struct Sizing {
    pub sizes: Once<Set, u64>,
    pub rows: Once<usize, u64>,
    pub divisors: Once<usize, u64>,
    /// The sets that have sizes, with their places.
    pub sets: Vec<(Set, Place)>,
    /// The form of the first statement, and its line.
    first: Option<(Form, usize)>,
    pub both: bool,
}

impl Sizing {
    pub fn new() -> Sizing {
        let (sizes, rows, divisors) = (Once::new(), Once::new(), Once::new());
        Sizing { sizes, rows, divisors, sets: Vec::new(), first: None, both: false }
    }

    /// Sizes, where nothing is told.
    pub fn form(&self) -> Form {
        self.first.map_or(Form::Sizes, |(form, _)| form)
    }

    pub fn size(
        &mut self,
        place: Place,
        relations: Option<Vec<Found>>,
        size: Option<u64>,
        names: &Names,
        faults: &mut Faults,
    ) {
        self.keep_to(Form::Sizes, place, faults);
        let at = relations.as_ref().and_then(|list| list.first().copied().flatten());
        let at = at.map_or(place, |(_, at)| at);
        let set = relations.and_then(|list| set(&list, names, faults));
        self.sets.extend(set.filter(|set| !self.sizes.has(set)).map(|set| (set, at)));
        let again = |&set: &Set| (at, format!("the size of {} is", names.set(set)));
        self.sizes.take(place, set, size, again, faults);
    }

    pub fn rows(
        &mut self,
        place: Place,
        relation: Found,
        rows: Option<u64>,
        names: &Names,
        faults: &mut Faults,
    ) {
        self.keep_to(Form::Rows, place, faults);
        let at = relation.map_or(place, |(_, at)| at);
        let again = |&number: &usize| (at, format!("rows of {} are", names.relation(number)));
        self.rows.take(place, relation.map(|(number, _)| number), rows, again, faults);
    }

    pub fn divisor(
        &mut self,
        place: Place,
        join: Found,
        divisor: Option<u64>,
        faults: &mut Faults,
    ) {
        self.keep_to(Form::Rows, place, faults);
        let at = join.map_or(place, |(_, at)| at);
        let again = |number: &usize| (at, format!("the divisor of join {number} is"));
        self.divisors.take(place, join.map(|(number, _)| number), divisor, again, faults);
    }

    /// A text has one form; the first statement of the other is told.
    fn keep_to(&mut self, form: Form, place: Place, faults: &mut Faults) {
        let &mut (first, line) = self.first.get_or_insert((form, place.line));
        if first != form && !self.both {
            self.both = true;
            let reason = "a text has sizes, or rows and divisors, not both";
            let begun = match first {
                Form::Sizes => "sizes begin",
                Form::Rows => "rows or divisors begin",
            };
            faults.tell(place, format!("{reason}; {begun} in line {line}"));
        }
    }
}

/// The set of these relations, none of them twice.
fn set(relations: &[Found], names: &Names, faults: &mut Faults) -> Option<Set> {
    let (mut set, mut twice, mut faulty) = (0, 0, false);
    for found in relations {
        let Some((relation, place)) = *found else {
            faulty = true;
            continue;
        };
        if sets::holds(set, relation) && !sets::holds(twice, relation) {
            twice |= sets::single(relation);
            let reason = format!("{} stands twice in the set", names.the_relation(relation));
            faults.tell(place, reason);
        }
        set |= sets::single(relation);
    }
    (!faulty && twice == 0).then_some(set)
}
