//! Random room calls.

use crate::generate::queries::{self, Shape};
use crate::generate::standing::Standing;
use crate::generate::trees;
use crate::limits::{MOST_RELATIONS, MOST_SITES};
use crate::random::Random;
use crate::room::Draft;

/// More bytes than the joins of any query have.
const MOST_BYTES: u64 = 20;

/// A draft of the query in force or of another one; half the time it is damaged once or twice.
pub fn draft(random: &mut Random, standing: &Standing) -> Draft {
    let mut draft = match standing.query() {
        Some(query) if random.percent(30) => Draft::of(query),
        _ => right(random),
    };
    for _ in 0..random.pick(&[0, 0, 0, 1, 1, 2]) {
        match random.below(6) {
            0 => draft.relations = wild(random, draft.relations, MOST_RELATIONS as u64),
            1 => draft.sites = wild(random, draft.sites, MOST_SITES as u64),
            2 => other_length(random, &mut draft),
            _ => other_joins(random, &mut draft),
        }
    }
    draft
}

/// A tree of any shape, now and then of one relation more than a query may have.
fn right(random: &mut Random) -> Draft {
    let most = MOST_RELATIONS as u64;
    let n = if random.percent(3) { most + 1 } else { random.between(1, most) };
    let s = random.between(1, MOST_SITES as u64);
    let shape = random.pick(&Shape::ALL);
    let joins = queries::joins(random, shape, n as usize);
    Draft::new(n, s, &trees::turned(random, joins))
}

/// Mostly a number that a narrower one would take for a good one.
fn wild(random: &mut Random, value: u64, limit: u64) -> u64 {
    let number = random.number();
    random.pick(&[
        0,
        value.wrapping_sub(1),
        value.wrapping_add(1),
        limit + 1,
        value.wrapping_add(1 << 8),
        value.wrapping_add(1 << 16),
        value.wrapping_add(1 << 32),
        value.wrapping_add(1 << 63),
        1 << 63,
        u64::MAX,
        number,
    ])
}

/// Other joins than n - 1: a byte or a pair more or fewer, any number up to twenty bytes, or
/// one that a narrower number would take for the right one.
fn other_length(random: &mut Random, draft: &mut Draft) {
    let length = draft.joins.len();
    let any = random.between(0, MOST_BYTES) as usize;
    let length = random.pick(&[
        length + 1,
        length + 2,
        length.saturating_sub(1),
        length.saturating_sub(2),
        length + 256,
        any,
    ]);
    let byte = random.between(0, draft.relations.clamp(1, 9)) as u8;
    draft.joins.resize(length, byte);
}

/// A relation that is out of range, a relation joined with itself, or a join with other ends,
/// so that the joins may go in a circle and not reach all.
fn other_joins(random: &mut Random, draft: &mut Draft) {
    let joins = draft.joins.len() / 2;
    if joins == 0 {
        return;
    }
    let n = draft.relations.clamp(1, 255);
    let place = 2 * random.below(joins);
    let any = random.between(0, n - 1) as u8;
    match random.below(4) {
        0 => draft.joins[place + random.below(2)] = random.pick(&[n as u8, n as u8, 9, 128, 255]),
        1 => draft.joins[place] = draft.joins[place + 1],
        _ => draft.joins[place + random.below(2)] = any,
    }
}
