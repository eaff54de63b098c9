//! Random link calls.

use crate::generate::standing::Standing;
use crate::limits::{MOST_FIXED, MOST_RATE};
use crate::planner::Link;
use crate::random::Random;

/// Mostly a line of the query; now and then an argument that a narrower number
/// would take for a good one.
pub fn link(random: &mut Random, standing: &Standing) -> Link {
    let sites = standing.query().map_or(3, |query| query.sites.len()) as u64;
    let mut link = Link {
        sender: random.between(0, sites - 1),
        receiver: random.between(0, sites - 1),
        open: u64::from(random.percent(75)),
        fixed: random.spread(MOST_FIXED),
        rate: random.spread(MOST_RATE),
    };
    if link.receiver == link.sender && random.percent(80) {
        link.receiver = (link.sender + 1) % sites;
    }
    for _ in 0..random.pick(&[0, 0, 0, 1, 1, 2]) {
        match random.below(5) {
            0 => link.sender = wild(random, link.sender, sites - 1),
            1 => link.receiver = wild(random, link.receiver, sites - 1),
            2 => link.open = wild(random, link.open, 1),
            3 => link.fixed = wild(random, link.fixed, MOST_FIXED),
            _ => link.rate = wild(random, link.rate, MOST_RATE),
        }
    }
    link
}

fn wild(random: &mut Random, value: u64, limit: u64) -> u64 {
    let number = random.number();
    random.pick(&[
        limit,
        limit + 1,
        value.wrapping_add(1 << 8),
        value.wrapping_add(1 << 16),
        value.wrapping_add(1 << 32),
        (1 << 32) + 1,
        value.wrapping_add(1 << 63),
        u64::from(u32::MAX),
        u64::MAX,
        u64::MAX - limit,
        number,
    ])
}
