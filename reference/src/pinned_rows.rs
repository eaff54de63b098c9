//! Queries that are stated by row counts, with every size worked out by hand.

use crate::limits::{MOST_DIVISOR, MOST_ROWS, MOST_SIZE};
use crate::pinned;
use crate::query::{Query, Relation, Site};
use crate::rows::RowCounts;
use crate::sets;
use crate::stated::Stated;
use crate::tree::{self, Join};
use crate::units::{Bytes, Charge, Rate};

pub struct Worked {
    pub what: &'static str,
    pub stated: Stated,
    /// Of the subqueries, ascending.
    pub sizes: Vec<u64>,
}

impl Worked {
    /// The query with the sizes that were worked out by hand.
    pub fn by_hand(&self) -> Query {
        let mut query = self.stated.query.clone();
        query.sizes = self.sizes.iter().map(|&size| Bytes(size)).collect();
        query
    }
}

/// Q of docs/RULES.md, 10.1: 10 x 4 / 16 is 2.5, so 3.
pub fn q() -> Stated {
    Stated::from_rows(pinned::q(), counts(&[10, 4], &[16]))
}

/// A relation alone: Divisors is a count of 0 and nothing else.
pub fn alone() -> Stated {
    Stated::from_rows(pinned::alone(), counts(&[7], &[]))
}

pub fn worked() -> Vec<Worked> {
    let (rows, divisor, size) = (MOST_ROWS, MOST_DIVISOR, MOST_SIZE);
    let at_one_site = |what, joins, rows: &[u64], divisors: &[u64], sizes: &[u64]| {
        let stated = at_one_site(joins, counts(rows, divisors));
        Worked { what, stated, sizes: sizes.to_vec() }
    };
    vec![
        Worked { what: "Q", stated: q(), sizes: vec![10, 4, 3] },
        Worked { what: "a relation alone", stated: alone(), sizes: vec![7] },
        // {0, 1}: 10^12, cut to 10^9; all: 10^9 x 1 / 10^6.
        at_one_site(
            "cut at each step",
            pinned::chain(3),
            &[rows, rows, 1],
            &[1, divisor],
            &[rows, rows, size, 1, 1, 1_000],
        ),
        // All, by 0, 2, 1, 3: 3, 3 / 1, 3 / 2 is 1.5, so 2, and 10 / 3 is 3.3, so 4.
        at_one_site(
            "the lowest relation that is adjacent",
            joins(&[(0, 2), (2, 1), (0, 3)]),
            &[3, 1, 1, 5],
            &[1, 2, 3],
            &[3, 1, 1, 3, 1, 2, 5, 5, 5, 4],
        ),
        // All, by 0, 1, 2: 1, 1 / 2 is 0.5, so 1, and 3 / 1. By 0, 2, 1 it would be 2.
        at_one_site(
            "the lowest relation before the lowest join",
            joins(&[(0, 2), (0, 1)]),
            &[1, 1, 3],
            &[1, 2],
            &[1, 1, 1, 3, 3, 3],
        ),
        // All: 1 / 2 is 0.5, so 1, and 5 / 2 is 2.5, so 3. At the end 5 / 4 would be 2.
        at_one_site(
            "rounded up at each step",
            pinned::chain(3),
            &[1, 1, 5],
            &[2, 2],
            &[1, 1, 1, 5, 3, 3],
        ),
        // {0, 1}: 10^9 is not cut; {1, 2}: 1,001,000,000 is.
        at_one_site(
            "at the limit of a size",
            pinned::chain(3),
            &[1_000, rows, 1_001],
            &[1, 1],
            &[1_000, rows, size, 1_001, size, size],
        ),
        at_one_site("all 1", pinned::star(4), &[1; 4], &[1; 3], &[1; 11]),
        at_one_site("all at the limit", pinned::chain(4), &[rows; 4], &[divisor; 3], &[rows; 10]),
        chain_numbered_otherwise(),
        star_around_the_last(),
    ]
}

/// The chain 4, 0, 3, 1, 2. All, by 0, 3, 1, 2, 4: 3, 4, 2, 5 and 35 / 2, so 18.
pub fn chain_numbered_otherwise() -> Worked {
    let counts = counts(&[3, 2, 5, 4, 7], &[2, 3, 4, 2]);
    Worked {
        what: "a chain that is numbered otherwise",
        stated: at_one_site(joins(&[(4, 0), (0, 3), (3, 1), (1, 2)]), counts),
        sizes: vec![3, 2, 5, 5, 4, 4, 2, 2, 5, 5, 7, 11, 14, 7, 18],
    }
}

/// Nine relations in a star around relation 8, which has one row; the others have 4 each,
/// and all divisors are 3. A leaf comes first, then 8: 4 / 3, so 2. Each further leaf makes
/// 4 / 3 of it, rounded up.
fn star_around_the_last() -> Worked {
    let by_leaves = [1, 2, 3, 4, 6, 8, 11, 15, 20];
    let joins = (0..8).map(|leaf| Join { first: 8, second: leaf }).collect::<Vec<_>>();
    let size = |&subquery: &sets::Set| match sets::holds(subquery, 8) {
        true => by_leaves[sets::count(subquery) - 1],
        false => 4,
    };
    let sizes = tree::subqueries(&joins, 9).iter().map(size).collect();
    let counts = counts(&[4, 4, 4, 4, 4, 4, 4, 4, 1], &[3; 8]);
    Worked { what: "a star around the last", stated: at_one_site(joins, counts), sizes }
}

/// All relations at one site, which joins for 1 a byte: what a plan costs is the sum of all
/// that its joins read and make.
fn at_one_site(joins: Vec<Join>, counts: RowCounts) -> Stated {
    let sizes = counts.sizes(&joins);
    let site = Site { may_join: true, fixed: Charge(0), rate: Rate(1) };
    let relations = vec![Relation { home: 0, index: false }; counts.rows.len()];
    let query = Query::new(vec![site], relations, joins, sizes, Vec::new(), 0);
    Stated::from_rows(query, counts)
}

fn counts(rows: &[u64], divisors: &[u64]) -> RowCounts {
    RowCounts { rows: rows.to_vec(), divisors: divisors.to_vec() }
}

fn joins(ends: &[(usize, usize)]) -> Vec<Join> {
    ends.iter().map(|&(first, second)| Join { first, second }).collect()
}
