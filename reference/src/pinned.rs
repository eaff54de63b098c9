//! Queries that are pinned by name: Q of the rules and the rows made from it, and
//! the vectors from the papers.

use crate::limits::PARCEL;
use crate::query::{Line, Query, Relation, Site};
use crate::tree::{self, Join};
use crate::units::{Bytes, Charge, Rate};

/// A query with its cheapest plan and what that costs, worked out by hand.
pub struct Worked {
    pub what: &'static str,
    pub query: Query,
    pub plan: Vec<u8>,
    pub cost: u64,
}

/// Q of docs/RULES.md, 10.1.
pub fn q() -> Query {
    Query::new(
        equal_sites(3, 2, 1),
        homes(&[0, 1]),
        chain(2),
        sizes(&[10, 4, 3]),
        equal_lines(3, 1, 1),
        0,
    )
}

/// Rows 1 to 9 of the pinned table: the query and its cost, none for no route.
pub fn rows() -> Vec<(Query, Option<u64>)> {
    let changed = |change: &dyn Fn(&mut Query)| {
        let mut query = q();
        change(&mut query);
        query
    };
    vec![
        (q(), Some(21)),
        (changed(&|query| query.delivery = 2), Some(23)),
        (changed(&|query| query.relations[0].index = true), Some(11)),
        (changed(&|query| query.sites[0].may_join = false), Some(24)),
        (changed(&|query| query.line_mut(1, 0).open = false), Some(23)),
        (
            changed(&|query| {
                query.line_mut(1, 0).open = false;
                query.line_mut(2, 0).open = false;
            }),
            None,
        ),
        (changed(&|query| query.lines = equal_lines(3, 0, 0)), Some(19)),
        (relation_0_alone(0), Some(0)),
        (relation_0_alone(1), Some(3)),
    ]
}

/// Q with relation 1 and join 0 taken out.
fn relation_0_alone(delivery: usize) -> Query {
    Query::new(
        equal_sites(3, 2, 1),
        homes(&[0]),
        chain(1),
        sizes(&[10]),
        equal_lines(3, 1, 1),
        delivery,
    )
}

/// The fourth example of C-W. Chung, *A Query Optimization in Distributed Database
/// Systems* (1983), as a chain of five; 364 is the paper's own figure. It charges by the
/// byte, so each of its bytes is a full parcel here.
pub fn chain_of_five() -> Query {
    let by_subquery = [100, 400, 80, 700, 311, 62, 1100, 481, 214, 43, 1600, 733, 321, 143, 29];
    Query::new(
        equal_sites(6, 0, 0),
        homes(&[0, 1, 2, 3, 4]),
        chain(5),
        sizes(&by_subquery.map(|size| size * PARCEL)),
        equal_lines(6, 10, 1),
        5,
    )
}

/// The cheapest plan joins {0, 1} with {2, 3} away from all homes: 28, by 13 parcels for a
/// relation and one for a pair, each twice. With a single relation as one operand always it
/// is 40, joining only at homes 152.
pub fn bushy_four() -> Query {
    let by_subquery = [100, 100, 1, 100, 100, 1000, 100, 1, 1000, 1000];
    Query::new(
        equal_sites(5, 0, 0),
        homes(&[0, 1, 2, 3]),
        chain(4),
        sizes(&by_subquery),
        equal_lines(5, 0, 1),
        4,
    )
}

/// Sizes at and beside full parcels, and at the limit, with the parcels that they start.
pub const PARCELS: [(u64, u64); 10] = [
    (0, 0),
    (1, 1),
    (7, 1),
    (8, 1),
    (9, 2),
    (15, 2),
    (16, 2),
    (17, 3),
    (999_999_999, 125_000_000),
    (1_000_000_000, 125_000_000),
];

/// One relation of this size, sent once for 3 + 5 a parcel.
pub fn sent(size: u64) -> Query {
    Query::new(equal_sites(2, 2, 1), homes(&[0]), chain(1), sizes(&[size]), equal_lines(2, 3, 5), 1)
}

/// Two relations of this size, joined where they stand for 2 + 1 a byte of both and of the
/// result, which has this size too and is sent for 3 + 5 a parcel.
pub fn joined_and_sent(size: u64) -> Query {
    let mut query = Query::new(
        equal_sites(2, 2, 1),
        homes(&[0, 0]),
        chain(2),
        sizes(&[size; 3]),
        equal_lines(2, 3, 5),
        1,
    );
    query.sites[1].may_join = false;
    query
}

/// Q with a parcel each, delivered to site 2: every site is as good, so site 0 joins. By the
/// byte site 2 would be cheaper.
pub fn a_parcel_each() -> Query {
    let mut query = q();
    query.sizes = sizes(&[7, 7, 8]);
    query.delivery = 2;
    query
}

/// A tie that tells "lowest site over all" from "the asked site first": everything
/// is free, so relation 0's home 0 wins over the asked site 1.
pub fn lower_site_at_a_tie() -> Query {
    Query::new(
        equal_sites(2, 0, 0),
        homes(&[0, 1]),
        chain(2),
        sizes(&[1, 1, 1]),
        equal_lines(2, 0, 0),
        1,
    )
}

/// One relation at one site, which may not join: no joins, no lines.
pub fn alone() -> Query {
    let site = Site { may_join: false, fixed: Charge(0), rate: Rate(0) };
    let relation = Relation { home: 0, index: true };
    Query::new(vec![site], vec![relation], chain(1), sizes(&[7]), Vec::new(), 0)
}

/// All sizes and amounts alike, every site open to joins, relation r at home r mod s.
pub fn uniform(joins: Vec<Join>, sites: usize) -> Query {
    let n = joins.len() + 1;
    let home_of: Vec<usize> = (0..n).map(|relation| relation % sites).collect();
    let all_sizes = vec![Bytes(1); tree::subqueries(&joins, n).len()];
    Query::new(
        equal_sites(sites, 1, 1),
        homes(&home_of),
        joins,
        all_sizes,
        equal_lines(sites, 1, 1),
        0,
    )
}

/// Join r links relations r and r + 1.
pub fn chain(n: usize) -> Vec<Join> {
    (1..n).map(|second| Join { first: second - 1, second }).collect()
}

/// Every join links relation 0 and another.
pub fn star(n: usize) -> Vec<Join> {
    (1..n).map(|second| Join { first: 0, second }).collect()
}

pub fn equal_sites(count: usize, fixed: u64, rate: u64) -> Vec<Site> {
    vec![Site { may_join: true, fixed: Charge(fixed), rate: Rate(rate) }; count]
}

pub fn equal_lines(sites: usize, fixed: u64, rate: u64) -> Vec<Line> {
    let line = Line { open: true, fixed: Charge(fixed), rate: Rate(rate) };
    vec![line; sites * (sites - 1)]
}

pub fn homes(homes: &[usize]) -> Vec<Relation> {
    homes.iter().map(|&home| Relation { home, index: false }).collect()
}

pub fn sizes(sizes: &[u64]) -> Vec<Bytes> {
    sizes.iter().map(|&size| Bytes(size)).collect()
}
