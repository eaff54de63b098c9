//! Random queries like those of a depot network with unequal lines: sizes follow from
//! the relations' sizes and a divisor for each join, and every line is open at its own
//! price.

use std::ops::RangeInclusive;

use crate::generate::queries::{self, Shape};
use crate::limits::MOST_SIZE;
use crate::query::{Line, Query, Relation, Site};
use crate::random::Random;
use crate::sets::{self, Set};
use crate::tree::{self, Join};
use crate::units::{Bytes, Charge, Rate};

pub const RELATION_SIZE: RangeInclusive<u64> = 1_000..=1_000_000;
pub const LINE_FIXED: RangeInclusive<u64> = 0..=1_000_000;
pub const LINE_RATE: RangeInclusive<u64> = 10..=200;
pub const JOIN_FIXED: RangeInclusive<u64> = 0..=100_000;
pub const JOIN_RATE: RangeInclusive<u64> = 5..=20;
/// How many relations of a hundred have an index.
pub const INDEXED: u64 = 25;

pub fn query(random: &mut Random, shape: Shape, n: usize, s: usize) -> Query {
    let joins = queries::joins(random, shape, n);
    let relation_sizes: Vec<f64> = (0..n).map(|_| log_uniform(random, RELATION_SIZE)).collect();
    let divisors: Vec<f64> =
        joins.iter().map(|join| divisor(random, join, &relation_sizes)).collect();
    let size = |&subquery: &Set| Bytes(result_size(&joins, &relation_sizes, &divisors, subquery));
    let sizes = tree::subqueries(&joins, n).iter().map(size).collect();

    let relation =
        |random: &mut Random| Relation { home: random.below(s), index: random.percent(INDEXED) };
    let relations = (0..n).map(|_| relation(random)).collect();
    let site = |random: &mut Random| Site {
        may_join: true,
        fixed: Charge(uniform(random, JOIN_FIXED)),
        rate: Rate(uniform(random, JOIN_RATE)),
    };
    let sites = (0..s).map(|_| site(random)).collect();
    let line = |random: &mut Random| Line {
        open: true,
        fixed: Charge(uniform(random, LINE_FIXED)),
        rate: Rate(uniform(random, LINE_RATE)),
    };
    let lines = (0..s * (s - 1)).map(|_| line(random)).collect();
    Query::new(sites, relations, joins, sizes, lines, random.below(s))
}

/// What the product of two sizes is divided by: from half the smaller relation (the
/// result is twice the larger) to twice the larger (the result is half the smaller).
fn divisor(random: &mut Random, join: &Join, relation_sizes: &[f64]) -> f64 {
    let (one, other) = (relation_sizes[join.first], relation_sizes[join.second]);
    let (least, most) = (one.min(other) / 2.0, one.max(other) * 2.0);
    least * (most / least).powf(fraction(random))
}

/// The product of the relations' sizes over the divisors of the joins, at least 1.
fn result_size(joins: &[Join], relation_sizes: &[f64], divisors: &[f64], subquery: Set) -> u64 {
    let product: f64 = sets::members(subquery).map(|relation| relation_sizes[relation]).product();
    let inside = joins.iter().zip(divisors).filter(|(join, _)| join.within(subquery));
    let divisor: f64 = inside.map(|(_, divisor)| divisor).product();
    (product / divisor).clamp(1.0, MOST_SIZE as f64) as u64
}

fn uniform(random: &mut Random, range: RangeInclusive<u64>) -> u64 {
    random.between(*range.start(), *range.end())
}

fn log_uniform(random: &mut Random, range: RangeInclusive<u64>) -> f64 {
    let (least, most) = (*range.start() as f64, *range.end() as f64);
    (least * (most / least).powf(fraction(random))).floor()
}

/// From 0 to 1.
fn fraction(random: &mut Random) -> f64 {
    random.between(0, 1_000_000) as f64 / 1e6
}
