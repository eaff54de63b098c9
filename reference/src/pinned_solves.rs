//! Fixed lists of calls for solve alone: outputs of every length around a plan's, numbers of
//! cells around what is needed, and what may stand between two solves.

use crate::encode::encode;
use crate::limits::{LONGEST_PLAN, MOST_SIZE};
use crate::pinned;
use crate::pinned_calls::{check, link, load, load_file, solve};
use crate::query::{Line, Query, Relation, Site};
use crate::room::Draft;
use crate::script::Call;
use crate::sets::{self, Set};
use crate::tree::{self, Join};
use crate::units::{Bytes, Charge, Rate};

/// An output that every plan fits.
const LONGEST: u32 = LONGEST_PLAN as u32;

pub fn lists() -> Vec<Vec<Call>> {
    vec![output_lengths(), cells(), needs(), need_in_force(), between_two_solves()]
}

/// A row of docs/RULES.md, 10.3: Q is row 1, with a plan of 9 bytes; row 5 has one of 11,
/// and row 6 has no route.
fn row(number: usize) -> Query {
    pinned::rows().swap_remove(number - 1).0
}

/// Outputs of every length from 0 to one more than the plan has; for the longest plan that
/// there is, beside its own.
pub fn output_lengths() -> Vec<Call> {
    let mut calls = Vec::new();
    for (number, most) in [(1, 10), (5, 12), (6, 12)] {
        calls.push(load(&row(number)));
        calls.extend((0..=most).map(|output| solve(9, output)));
    }
    calls.push(load(&longest_plan()));
    calls.extend([LONGEST - 1, LONGEST, LONGEST + 1].map(|output| solve(360, output)));
    calls
}

/// The query of examples/longest-plan.txt, whose plan has all the steps that a plan can have:
/// the first relations together grow fourfold with each join, and each join is cheapest at the
/// next site. Lines are free and lead from each site to the one below it alone, and from site 0
/// to site 7. So what is sent to the next site takes seven sends, and each relation starts at
/// the site below the one where it is joined.
pub fn longest_plan() -> Query {
    let terms =
        [(0, 7), (10, 6), (50, 5), (210, 4), (850, 3), (3_410, 2), (13_650, 1), (54_610, 0)];
    let site = |(fixed, rate)| Site { may_join: true, fixed: Charge(fixed), rate: Rate(rate) };
    let relation = |home| Relation { home, index: false };
    let line = |(sender, receiver)| {
        let open = receiver == (sender + 7) % 8;
        Line { open, fixed: Charge(0), rate: Rate(0) }
    };
    let size = |&subquery: &Set| match sets::count(subquery) as u32 {
        1 => Bytes(1),
        count if sets::holds(subquery, 0) => Bytes(4u64.pow(count - 1)),
        _ => Bytes(MOST_SIZE),
    };
    let joins = pinned::chain(9);
    Query::new(
        terms.map(site).to_vec(),
        [7, 7, 0, 1, 2, 3, 4, 5, 6].map(relation).to_vec(),
        joins.clone(),
        tree::subqueries(&joins, 9).iter().map(size).collect(),
        Query::line_ends(8).map(line).collect(),
        0,
    )
}

/// Too few cells, enough and more, each with outputs that do for Q's plan and that do not.
pub fn cells() -> Vec<Call> {
    let mut calls = Vec::new();
    for number in [1, 6] {
        calls.push(load(&row(number)));
        for cells in FEW.into_iter().chain(ENOUGH) {
            calls.extend([9, 8, 0].map(|output| solve(cells, output)));
        }
    }
    calls
}

/// Q needs nine cells: too few are none, one, its relations, its subqueries, its relations
/// at each site, and one less.
pub const FEW: [u32; 6] = [0, 1, 2, 3, 6, 8];
pub const ENOUGH: [u32; 7] = [9, 10, 24, 2_112, 4_095, 4_096, 5_000];

/// One relation at each number of sites, then a chain and a star of nine at eight: a cell less
/// than is needed, as many, and one more.
pub fn needs() -> Vec<Call> {
    let one_to_eight = (1..=8).map(|sites| tied(1, sites, pinned::chain(1)));
    let nine = [pinned::chain(9), pinned::star(9)].map(|joins| tied(9, 8, joins));
    let mut calls = Vec::new();
    for (query, need) in one_to_eight.chain(nine).zip((1..=8).chain([360, 2_112])) {
        calls.push(load(&query));
        calls.extend([need - 1, need, need + 1, 4_096].map(|cells| solve(cells, LONGEST)));
    }
    calls
}

/// Everything is free, so that all plans cost the same; all relations stand at site 0, and are
/// asked for at the last.
fn tied(n: usize, sites: usize, joins: Vec<Join>) -> Query {
    let site = Site { may_join: true, fixed: Charge(0), rate: Rate(0) };
    let line = Line { open: true, fixed: Charge(0), rate: Rate(0) };
    let relations = vec![Relation { home: 0, index: false }; n];
    let sizes = vec![Bytes(1); tree::subqueries(&joins, n).len()];
    let lines = vec![line; sites * (sites - 1)];
    Query::new(vec![site; sites], relations, joins, sizes, lines, sites - 1)
}

/// The need is that of the query in force: not of one that came before, was refused or was
/// only drafted, and a link leaves it.
pub fn need_in_force() -> Vec<Call> {
    let (q, chain) = (pinned::q(), tied(9, 8, pinned::chain(9)));
    let file = encode(&chain);
    vec![
        load(&chain),
        solve(9, LONGEST),
        solve(359, LONGEST),
        solve(360, 37),
        load(&q),
        solve(9, 9),
        solve(8, 9),
        load_file(file[..file.len() - 1].to_vec()),
        Call::Room(Draft::of(&chain)),
        solve(9, 9),
        link(1, 0, 0, 1, 1),
        solve(8, 11),
        solve(9, 11),
        load(&chain),
        solve(9, LONGEST),
        load_file(encode(&q)[..106].to_vec()),
        Call::Room(Draft::of(&q)),
        solve(9, LONGEST),
        solve(360, 37),
    ]
}

/// Checks and refused calls leave the query in force, links and loads replace it: each
/// solve answers by the query that then stands.
pub fn between_two_solves() -> Vec<Call> {
    let q = pinned::q();
    let best = [4, 1, 0, 1, 1, 2, 0, 3, 0];
    vec![
        load(&q),
        solve(9, 9),
        check(&best),
        check(&[]),
        solve(9, 9),
        load_file(encode(&q)[..106].to_vec()),
        solve(9, 9),
        solve(8, 9),
        solve(9, 8),
        solve(4_096, 9),
        link(1, 0, 0, 1, 1),
        solve(4_096, 9),
        solve(9, 11),
        check(&best),
        link(2, 0, 0, 1, 1),
        solve(9, 11),
        load(&q),
        solve(9, 9),
    ]
}
