//! Joins between relations: what they reach, which sets are subqueries, and the
//! two parts of a subquery when one join is taken out.

use crate::sets::{self, Set};

/// A join links two relations.
#[derive(Clone, Copy, Debug, PartialEq, Eq)]
pub struct Join {
    pub first: usize,
    pub second: usize,
}

impl Join {
    /// Both ends lie in the set.
    pub fn within(&self, set: Set) -> bool {
        sets::holds(set, self.first) && sets::holds(set, self.second)
    }

    /// One end lies in each of the two sets, either way round.
    pub fn between(&self, one: Set, other: Set) -> bool {
        sets::holds(one, self.first) && sets::holds(other, self.second)
            || sets::holds(one, self.second) && sets::holds(other, self.first)
    }
}

/// What is reached from one relation by joins inside the set, one join left out
/// if it is named. One relation is added at a time.
pub fn grown(joins: &[Join], from: usize, within: Set, without: Option<usize>) -> Set {
    let mut taken = sets::single(from);
    let next = |taken: Set| {
        let usable = |(number, join): (usize, &Join)| {
            let leads_out = sets::holds(taken, join.first) != sets::holds(taken, join.second);
            (Some(number) != without && join.within(within) && leads_out).then_some(*join)
        };
        joins.iter().enumerate().find_map(usable)
    };
    while let Some(join) = next(taken) {
        taken |= sets::single(join.first) | sets::single(join.second);
    }
    taken
}

/// A set of relations connected by joins.
pub fn is_subquery(joins: &[Join], set: Set) -> bool {
    set != 0 && grown(joins, sets::lowest(set), set, None) == set
}

/// All subqueries of n relations, ascending.
pub fn subqueries(joins: &[Join], n: usize) -> Vec<Set> {
    (1..=sets::everything(n)).filter(|&set| is_subquery(joins, set)).collect()
}

/// The part with the join's first relation, and the other part.
pub fn parts(joins: &[Join], subquery: Set, join: usize) -> (Set, Set) {
    let first = grown(joins, joins[join].first, subquery, Some(join));
    (first, subquery & !first)
}
