//! Fixed lists of calls for room: figures that were worked out by hand, every number of bytes,
//! wide numbers, joins that are wrong in one place, and room between other calls.

use crate::limits::{MOST_RELATIONS, MOST_SITES};
use crate::pinned;
use crate::pinned_calls::{check, link, load, load_file, SOLVE};
use crate::room::{Draft, Figures};
use crate::script::Call;
use crate::tree::Join;

pub fn lists() -> Vec<Vec<Call>> {
    let mut told: Vec<Call> = worked().into_iter().map(|(draft, _)| Call::Room(draft)).collect();
    told.extend(refused().into_iter().map(|(draft, _)| Call::Room(draft)));
    vec![told, longest(), every_length(), wide(), every_end(), too_many(), between_other_calls()]
}

pub fn room(relations: u64, sites: u64, joins: &[u8]) -> Call {
    Call::Room(Draft { relations, sites, joins: joins.to_vec() })
}

fn of_joins(sites: u64, joins: &[Join]) -> Call {
    Call::Room(Draft::new(joins.len() as u64 + 1, sites, joins))
}

/// The rows of docs/RULES.md, 14.11, with their figures.
pub fn worked() -> Vec<(Draft, Figures)> {
    let row = |n, s, joins: &[u8], [subqueries, cells, trials]: [u64; 3]| {
        let draft = Draft { relations: n, sites: s, joins: joins.to_vec() };
        (draft, Figures { subqueries, cells, trials })
    };
    let nine = |joins: Vec<Join>| Draft::new(9, 8, &joins).joins;
    vec![
        row(2, 3, &[0, 1], [3, 9, 3]),
        row(4, 1, &[0, 2, 2, 1, 0, 3], [10, 10, 10]),
        row(4, 2, &[3, 0, 1, 3, 3, 2], [11, 22, 24]),
        row(9, 8, &nine(pinned::chain(9)), [45, 360, 960]),
        row(9, 8, &nine(pinned::star(9)), [264, 2_112, 8_192]),
        row(1, 8, &[], [1, 8, 0]),
    ]
}

/// What 14.11 says is refused, and with which number.
pub fn refused() -> Vec<(Draft, u64)> {
    let row =
        |n, joins: &[u8], number| (Draft { relations: n, sites: 1, joins: joins.to_vec() }, number);
    vec![
        row(259, &[0, 1, 1, 2], 2),
        row(3, &[9, 1, 1, 2, 0], 2),
        row(3, &[0, 1, 0, 3], 3),
        row(3, &[0, 1, 2, 2], 4),
    ]
}

/// Chains and stars of one relation and of nine, at any number of sites.
pub fn longest() -> Vec<Call> {
    let sites = 1..=MOST_SITES as u64;
    let at =
        |s| [pinned::chain(1), pinned::chain(9), pinned::star(9)].map(|joins| of_joins(s, &joins));
    sites.flat_map(at).collect()
}

/// From no byte to twenty for each number of relations, as many of them as there can be in
/// range and leading to every relation; then all out of range, so that 2 is seen to come first.
pub fn every_length() -> Vec<Call> {
    let mut calls = Vec::new();
    for n in 1..=MOST_RELATIONS {
        let star: Vec<u8> = (1..=10).flat_map(|leaf| [0, (leaf % n) as u8]).collect();
        for length in 0..=star.len() {
            let s = 1 + length as u64 % 8;
            calls.push(room(n as u64, s, &star[..length]));
            calls.push(room(n as u64, s, &vec![255; length]));
        }
    }
    calls
}

/// Numbers outside 1 to 9 and 1 to 8, most of which a narrower number would take for good
/// ones, alone and together, with joins that are right for the narrower number.
pub fn wide() -> Vec<Call> {
    let wide = [8, 16, 32, 63].map(|bits| 1 << bits);
    let mut calls = Vec::new();
    for n in [0, 1, 2, 3, 9, 10] {
        let joins = Draft::new(n, 1, &pinned::star(n as usize)).joins;
        for s in [0, 1, 3, 8, 9] {
            calls.push(room(n, s, &joins));
            calls.extend(wide.iter().map(|more| room(n + more, s, &joins)));
            calls.extend(wide.iter().map(|more| room(n, s + more, &joins)));
        }
        calls.extend([room(u64::MAX, 1, &joins), room(n, u64::MAX, &joins)]);
    }
    calls
}

/// A star and a chain of four, in which each end of a join is turned to every relation and to
/// some that are not there: so a join links a relation with itself, joins go in a circle and
/// leave a relation out, and the first relation out of range stands in any place.
pub fn every_end() -> Vec<Call> {
    let mut calls = Vec::new();
    for joins in [pinned::star(4), pinned::chain(4)] {
        let draft = Draft::new(4, 3, &joins);
        for place in 0..draft.joins.len() {
            for relation in [0, 1, 2, 3, 4, 5, 8, 9, 128, 255] {
                let mut turned = draft.clone();
                turned.joins[place] = relation;
                calls.push(Call::Room(turned));
            }
        }
    }
    calls.extend([
        // Two that do not reach, and 3 all the same.
        room(4, 1, &[1, 1, 2, 3, 3, 4]),
        room(4, 1, &[4, 0, 1, 1, 2, 2]),
        // Circles.
        room(4, 1, &[0, 1, 1, 2, 2, 0]),
        room(4, 1, &[1, 2, 2, 3, 3, 1]),
        room(5, 1, &[0, 1, 0, 1, 2, 3, 3, 4]),
        room(2, 1, &[0, 0]),
        room(2, 1, &[1, 1]),
    ]);
    calls
}

/// More bytes than joins: a pair that is there twice, and as many more as a narrower number
/// would not see.
fn too_many() -> Vec<Call> {
    let mut calls = Vec::new();
    for n in 1..=MOST_RELATIONS {
        let right = Draft::new(n as u64, 2, &pinned::star(n)).joins;
        for more in [2, 256, 65_280] {
            let mut joins = right.clone();
            joins.resize(right.len() + more, 0);
            calls.push(room(n as u64, 2, &joins));
        }
    }
    calls.push(room(1, 1, &vec![0; usize::from(u16::MAX)]));
    calls
}

/// Room on an empty planner and between all other calls: none of its answers tells of the
/// query in force, and the query stays.
pub fn between_other_calls() -> Vec<Call> {
    let q = pinned::q();
    let best = [4, 1, 0, 1, 1, 2, 0, 3, 0];
    let (drafted, other) = (Call::Room(Draft::of(&q)), room(4, 2, &[3, 0, 1, 3, 3, 2]));
    let refused = [room(10, 3, &[0, 1]), room(2, 3, &[0, 2]), room(2, 3, &[1, 1])];
    let rooms = [&[drafted, other][..], &refused].concat();
    let between = [
        SOLVE,
        load_file(Vec::new()),
        load(&q),
        SOLVE,
        check(&best),
        link(1, 0, 0, 1, 1),
        SOLVE,
        check(&best),
        load(&pinned::uniform(pinned::star(3), 2)),
        SOLVE,
    ];
    between.into_iter().flat_map(|call| [&rooms[..], &[call]].concat()).collect()
}
