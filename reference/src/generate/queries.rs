//! Random valid queries: chains, stars and random trees, with amounts from all alike
//! (many ties) to the limits, and with lines of all kinds.

use std::ops::RangeInclusive;

use crate::generate::amounts::{Amounts, Mood};
use crate::generate::far;
use crate::generate::lines;
use crate::limits::{MOST_FIXED, MOST_RATE, MOST_RELATIONS, MOST_SITES, MOST_SIZE, PARCEL};
use crate::query::{Query, Relation, Site};
use crate::random::Random;
use crate::tree::{self, Join};
use crate::units::{Bytes, Charge, Rate};

/// How many relations and sites a query may have.
#[derive(Clone, Debug)]
pub struct Extent {
    pub relations: RangeInclusive<u64>,
    pub sites: RangeInclusive<u64>,
}

impl Extent {
    /// All that the rules allow.
    pub fn full() -> Extent {
        Extent { relations: 1..=MOST_RELATIONS as u64, sites: 1..=MOST_SITES as u64 }
    }

    /// What the exhaustive search does in milliseconds.
    pub fn small() -> Extent {
        Extent { relations: 1..=4, sites: 1..=3 }
    }

    /// What it does as soon, with sites for routes of many sends.
    pub fn wide() -> Extent {
        Extent { relations: 1..=3, sites: 4..=8 }
    }

    pub fn fits(&self, query: &Query) -> bool {
        self.relations.contains(&(query.relations.len() as u64))
            && self.sites.contains(&(query.sites.len() as u64))
    }
}

#[derive(Clone, Copy, Debug, PartialEq, Eq)]
pub enum Shape {
    Chain,
    Star,
    Tree,
}

impl Shape {
    pub const ALL: [Shape; 3] = [Shape::Chain, Shape::Star, Shape::Tree];
}

/// Now and then one with a long plan, where the extent has room for it.
pub fn query(random: &mut Random, extent: &Extent) -> Query {
    if random.percent(3) {
        let far = far::query(random);
        if extent.fits(&far) {
            return far;
        }
    }
    let (joins, s) = drawn(random, extent);
    with_joins(random, joins, s)
}

/// Joins, and a number of sites.
fn drawn(random: &mut Random, extent: &Extent) -> (Vec<Join>, usize) {
    let n = random.between(*extent.relations.start(), *extent.relations.end()) as usize;
    let s = random.between(*extent.sites.start(), *extent.sites.end()) as usize;
    let shape = random.pick(&Shape::ALL);
    (joins(random, shape, n), s)
}

/// A random query with few distinct prices, and so with many plans that cost the same.
pub fn tied(random: &mut Random, extent: &Extent) -> Query {
    let (joins, s) = drawn(random, extent);
    in_mood(random, joins, s, Mood::Ties)
}

/// A random query with these joins at so many sites.
pub fn with_joins(random: &mut Random, joins: Vec<Join>, s: usize) -> Query {
    let mood = if random.percent(30) { Mood::Ties } else { Mood::Mixed };
    in_mood(random, joins, s, mood)
}

fn in_mood(random: &mut Random, joins: Vec<Join>, s: usize, mood: Mood) -> Query {
    let n = joins.len() + 1;
    let subqueries = tree::subqueries(&joins, n).len();
    let sites = sites(random, s, mood);
    let relations = relations(random, n, s);
    let sizes = sizes(random, subqueries, mood);
    let lines = lines::lines(random, s, mood);
    Query::new(sites, relations, joins, sizes, lines, random.below(s))
}

/// Joins of a shape, relations and joins numbered and turned at random half the time.
pub fn joins(random: &mut Random, shape: Shape, n: usize) -> Vec<Join> {
    let mut names: Vec<usize> = (0..n).collect();
    let shuffled = random.percent(50);
    if shuffled {
        random.shuffle(&mut names);
    }
    let mut joins: Vec<Join> = (1..n)
        .map(|second| {
            let first = match shape {
                Shape::Chain => second - 1,
                Shape::Star => 0,
                Shape::Tree => random.below(second),
            };
            let (first, second) = (names[first], names[second]);
            if shuffled && random.percent(50) {
                Join { first: second, second: first }
            } else {
                Join { first, second }
            }
        })
        .collect();
    if shuffled {
        random.shuffle(&mut joins);
    }
    joins
}

fn sites(random: &mut Random, count: usize, mood: Mood) -> Vec<Site> {
    let may_join = random.pick(&[100, 100, 75, 40]);
    let fixed = Amounts::choose(random, MOST_FIXED, mood);
    let rate = Amounts::choose(random, MOST_RATE, mood);
    let site = |_| Site {
        may_join: random.percent(may_join),
        fixed: Charge(fixed.draw(random, MOST_FIXED)),
        rate: Rate(rate.draw(random, MOST_RATE)),
    };
    (0..count).map(site).collect()
}

/// Half the time one or two homes hold all relations, and half of these or all have an index:
/// both operands of a join then often qualify.
fn relations(random: &mut Random, count: usize, sites: usize) -> Vec<Relation> {
    let (index, most_homes) = match random.percent(50) {
        true => (random.pick(&[50, 100]), sites.min(2)),
        false => (random.pick(&[0, 30, 70, 100]), sites),
    };
    let homes = random.between(1, most_homes as u64) as usize;
    let relation = |_| Relation { home: random.below(homes), index: random.percent(index) };
    (0..count).map(relation).collect()
}

/// Half the time each size fills its parcels, or is a byte beside that.
fn sizes(random: &mut Random, count: usize, mood: Mood) -> Vec<Bytes> {
    if random.percent(50) {
        let amounts = Amounts::choose(random, MOST_SIZE, mood);
        return (0..count).map(|_| Bytes(amounts.draw(random, MOST_SIZE))).collect();
    }
    let most_parcels = MOST_SIZE / PARCEL;
    let parcels = Amounts::choose(random, most_parcels, mood);
    let size = |_| {
        let filled = PARCEL * parcels.draw(random, most_parcels);
        beside(random, filled)
    };
    (0..count).map(size).collect()
}

/// The size, or a byte less or more, within the limits.
fn beside(random: &mut Random, size: u64) -> Bytes {
    Bytes((size + random.between(0, 2)).saturating_sub(1).min(MOST_SIZE))
}
