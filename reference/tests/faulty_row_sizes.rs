//! Sizes that are worked out from row counts in a wrong way each; the comparison of call lists
//! stops at every one of them, and so does the one that holds the two loads to each other.

use std::io;

use reference::compare::program::{Answering, Feed};
use reference::compare::tally::Tally;
use reference::compare::{alike, calls};
use reference::decode::decode;
use reference::encode::encode;
use reference::generate;
use reference::limits::MOST_SIZE;
use reference::method::Method;
use reference::planner::Planner;
use reference::random::Random;
use reference::rows::RowCounts;
use reference::script::Call;
use reference::sets::{self, Set};
use reference::stated::{Form, Stated};
use reference::tree::Join;
use reference::units::Bytes;

/// What stands in for the working out of a size.
type Size = fn(&Case) -> u128;

/// A subquery with what its size is worked out from.
struct Case<'a> {
    joins: &'a [Join],
    counts: &'a RowCounts,
    subquery: Set,
}

const MOST: u128 = MOST_SIZE as u128;

/// The numbers of a step are worked out otherwise.
const WRONG_STEPS: [(&str, Size); 7] = [
    ("cut only at the end", |case| {
        let uncut = |size: u128, rows, divisor| size.saturating_mul(rows).div_ceil(divisor);
        case.stepwise(uncut).min(MOST)
    }),
    ("cut before it is divided", |case| {
        case.stepwise(|size, rows, divisor| (size * rows).min(MOST).div_ceil(divisor))
    }),
    ("rounded down", |case| case.stepwise(|size, rows, divisor| (size * rows / divisor).min(MOST))),
    ("rounded to the nearest", |case| {
        case.stepwise(|size, rows, divisor| ((size * rows + divisor / 2) / divisor).min(MOST))
    }),
    ("rounded up only at the end", |case| {
        // In parts so small that they tell what was left over.
        let parts = 1_000_000_000_000;
        let step =
            |size: u128, rows: u128, divisor: u128| (size * rows / divisor).min(MOST * parts);
        case.stepwise_from(case.first() * parts, step).div_ceil(parts)
    }),
    ("divided before it is multiplied", |case| {
        case.stepwise(|size, rows, divisor| (size.div_ceil(divisor) * rows).min(MOST))
    }),
    ("multiplied in 32 bits", |case| {
        let product = |size: u128, rows: u128| u128::from((size * rows) as u32);
        case.stepwise(|size, rows, divisor| product(size, rows).div_ceil(divisor).min(MOST))
    }),
];

/// Another relation comes next, or another divisor is taken.
const WRONG_ORDERS: [(&str, Size); 6] = [
    ("the highest relation first", |case| {
        case.in_order(|taken| case.adjacent(taken).last().copied())
    }),
    ("the lowest join that leads out first", |case| {
        case.in_order(|taken| case.adjacent(taken).into_iter().min_by_key(|&(_, join)| join))
    }),
    ("the highest join that leads out first", |case| {
        case.in_order(|taken| case.adjacent(taken).into_iter().max_by_key(|&(_, join)| join))
    }),
    ("the divisor of the relation's lowest join", |case| {
        case.in_order(|taken| {
            let (relation, _) = *case.adjacent(taken).first()?;
            let touches = |join: &Join| join.first == relation || join.second == relation;
            let lowest = |join: &Join| join.within(case.subquery) && touches(join);
            Some((relation, case.joins.iter().position(lowest)?))
        })
    }),
    ("the divisor by the relation's number", |case| {
        case.in_order(|taken| case.adjacent(taken).first().map(|&(next, _)| (next, next - 1)))
    }),
    ("relations by number, adjacent or not", |case| {
        let (mut taken, mut size) = (0, 1);
        for relation in sets::members(case.subquery) {
            size *= u128::from(case.counts.rows[relation]);
            for (join, divisor) in case.joins.iter().zip(&case.counts.divisors) {
                if join.between(taken, sets::single(relation)) {
                    size = size.div_ceil(u128::from(*divisor));
                }
            }
            size = size.min(MOST);
            taken |= sets::single(relation);
        }
        size
    }),
];

impl Case<'_> {
    fn first(&self) -> u128 {
        u128::from(self.counts.rows[sets::lowest(self.subquery)])
    }

    /// The relations that may join in, ascending, each with the join to it.
    fn adjacent(&self, taken: Set) -> Vec<(usize, usize)> {
        let join_to = |relation| {
            let between = |join: &Join| join.between(taken, sets::single(relation));
            self.joins.iter().position(between).map(|join| (relation, join))
        };
        sets::members(self.subquery & !taken).filter_map(join_to).collect()
    }

    /// The relations in the order of the rules, with another step.
    fn stepwise(&self, step: impl Fn(u128, u128, u128) -> u128) -> u128 {
        self.stepwise_from(self.first(), step)
    }

    fn stepwise_from(&self, first: u128, step: impl Fn(u128, u128, u128) -> u128) -> u128 {
        self.worked_out(first, |taken| self.adjacent(taken).first().copied(), step)
    }

    /// The step of the rules, in the order and with the joins of `next`.
    fn in_order(&self, next: impl Fn(Set) -> Option<(usize, usize)>) -> u128 {
        let step =
            |size: u128, rows: u128, divisor: u128| (size * rows).div_ceil(divisor).min(MOST);
        self.worked_out(self.first(), next, step)
    }

    fn worked_out(
        &self,
        first: u128,
        next: impl Fn(Set) -> Option<(usize, usize)>,
        step: impl Fn(u128, u128, u128) -> u128,
    ) -> u128 {
        let mut taken = sets::single(sets::lowest(self.subquery));
        let mut size = first;
        while let Some((relation, join)) = next(taken) {
            let (rows, divisor) = (self.counts.rows[relation], self.counts.divisors[join]);
            size = step(size, u128::from(rows), u128::from(divisor));
            taken |= sets::single(relation);
        }
        size
    }
}

/// The model with another size of each subquery.
struct With(Size);

impl With {
    /// The ordinary load of the file with the wrong sizes.
    fn load(&self, mut stated: Stated) -> Call {
        let With(size) = self;
        if let Some(counts) = &stated.counts {
            let joins = stated.query.joins();
            let sizes = stated
                .query
                .subqueries()
                .iter()
                .map(|&subquery| Bytes(size(&Case { joins, counts, subquery }) as u64));
            stated.query.sizes = sizes.collect();
        }
        Call::Load { form: Form::Sizes, file: encode(&stated.query) }
    }
}

impl Answering for With {
    fn run(&self, mut script: &[u8], _: Feed) -> io::Result<String> {
        let mut planner = Planner::empty(Method::Rules);
        let mut text = String::new();
        while let Some(call) = Call::next(&mut script) {
            let done = match &call {
                Call::Load { form: Form::Rows, file } => {
                    decode(file, Form::Rows).map_or(call, |stated| self.load(stated))
                }
                _ => call,
            };
            text.extend(done.run(&mut planner).into_iter().map(|line| line + "\n"));
        }
        Ok(text)
    }
}

#[test]
fn the_right_sizes_pass() {
    let right = |case: &Case| case.in_order(|taken| case.adjacent(taken).first().copied());
    assert!(calls::compare(&With(right), 63, 20).unwrap().is_ok());
}

#[test]
fn every_wrong_size_is_found() {
    for (fault, size) in WRONG_STEPS.into_iter().chain(WRONG_ORDERS) {
        let compared = calls::compare(&With(size), calls::DEFAULT_SEED, calls::DEFAULT_LISTS);
        let Err(mismatch) = compared.unwrap() else {
            panic!("{fault} is not found");
        };
        println!("== {fault}\n{mismatch}");
        assert!(mismatch.calls.len() <= 2, "{fault}: {mismatch}");
    }
}

/// Random lists alone, and what the program itself prints for the ordinary file.
#[test]
fn every_wrong_size_is_told_from_the_ordinary_load() {
    for (fault, size) in WRONG_STEPS.into_iter().chain(WRONG_ORDERS) {
        let differs = |case| {
            let list = generate::calls::calls(&mut Random::for_case(64, case), 400);
            alike::compare(&With(size), &list, &mut Tally::default()).unwrap().is_err()
        };
        assert!((0..calls::DEFAULT_LISTS).any(differs), "{fault} is not told apart");
    }
}
