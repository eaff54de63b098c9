//! Random lists of calls. The model runs along, so that plans to check and lengths of
//! outputs fit the query in force.

use crate::encode;
use crate::generate::damage;
use crate::generate::links;
use crate::generate::plans;
use crate::generate::queries::Extent;
use crate::generate::rooms;
use crate::generate::rows;
use crate::generate::standing::Standing;
use crate::limits::{LONGEST_PLAN, MOST_CELLS};
use crate::query::Query;
use crate::random::Random;
use crate::room::Draft;
use crate::script::Call;
use crate::stated::Form;

/// A list of calls from an empty planner.
pub fn calls(random: &mut Random, length: usize) -> Vec<Call> {
    let mut standing = Standing::empty();
    let extent = match random.below(4) {
        0 => Extent::small(),
        1 => Extent::wide(),
        2 => Extent { relations: 1..=6, sites: 1..=5 },
        _ => Extent::full(),
    };
    let mut calls = Vec::new();
    while calls.len() < length {
        let next = match random.below(100) {
            0 => twins(random, &mut standing, &extent),
            _ => vec![call(random, &standing, &extent)],
        };
        next.iter().for_each(|call| standing.add(call));
        calls.extend(next);
    }
    calls
}

fn call(random: &mut Random, standing: &Standing, extent: &Extent) -> Call {
    match random.below(100) {
        0..=9 => load(random, extent),
        10..=24 => Call::Link(links::link(random, standing)),
        25..=55 => solve(random, standing),
        56..=65 => room(random, standing),
        _ => {
            let plan = plan(random, standing);
            Call::Check { plan: long_at_times(random, plan) }
        }
    }
}

/// A load of either kind, of a file that is whole or damaged; now and then it gets a file
/// that is for the other.
fn load(random: &mut Random, extent: &Extent) -> Call {
    let form = random.pick(&Form::ALL);
    let file = if random.percent(40) {
        encode::encode_stated(&rows::stated(random, extent, form))
    } else {
        let file = damage::file(random, extent, form);
        long_at_times(random, file)
    };
    let taken_for = if random.percent(10) { random.pick(&Form::ALL) } else { form };
    Call::Load { form: taken_for, file }
}

/// A query from rows and a solve; then the ordinary file with the same sizes, and a solve
/// with the same areas.
fn twins(random: &mut Random, standing: &mut Standing, extent: &Extent) -> Vec<Call> {
    let stated = rows::stated(random, extent, Form::Rows);
    let from_rows = Call::Load { form: Form::Rows, file: encode::encode_stated(&stated) };
    let ordinary = Call::Load { form: Form::Sizes, file: encode::encode(&stated.query) };
    standing.add(&from_rows);
    let solve = solve(random, standing);
    vec![from_rows, solve.clone(), ordinary, solve]
}

fn solve(random: &mut Random, standing: &Standing) -> Call {
    Call::Solve { cells: cells(random, standing), output: output_length(random, standing) }
}

fn room(random: &mut Random, standing: &Standing) -> Call {
    let draft = rooms::draft(random, standing);
    let joins = long_at_times(random, draft.joins);
    Call::Room(Draft { joins, ..draft })
}

/// Now and then as many bytes as a record can have.
fn long_at_times(random: &mut Random, mut bytes: Vec<u8>) -> Vec<u8> {
    if random.below(500) == 0 {
        bytes.resize(usize::from(u16::MAX), 1);
    }
    bytes
}

fn plan(random: &mut Random, standing: &Standing) -> Vec<u8> {
    let cheapest = standing.cheapest().map(|plan| &plan.steps[..]);
    match standing.query() {
        Some(query) => plans::to_check(random, query, cheapest),
        None => vec![1, 1, 0],
    }
}

/// At and beside what the query in force needs, and what other queries need.
fn cells(random: &mut Random, standing: &Standing) -> u32 {
    let need = standing.query().map_or(9, Query::cells_needed) as u32;
    let subqueries = standing.query().map_or(3, |query| query.subqueries().len()) as u32;
    let fewer = random.below(need as usize) as u32;
    let any = random.between(0, 8_192) as u32;
    let most = MOST_CELLS as u32;
    let enough = [need, need, need, need + 1, need + 64, 4_096, 8_192, 8_193, u32::MAX];
    let others = [need - 1, need - 1, fewer, 0, subqueries, 8 * subqueries, most, 4_095, any];
    let cells = if random.percent(70) { &enough } else { &others };
    random.pick(cells)
}

/// At and beside the length of the plan that is written, where there is one.
fn output_length(random: &mut Random, standing: &Standing) -> u32 {
    let length = standing.cheapest().map_or(9, |plan| 1 + 2 * plan.steps.len() as u32);
    let shorter = random.below(length as usize) as u32;
    let longer = length + random.below(100) as u32;
    let longest = LONGEST_PLAN as u32;
    let long = if random.percent(5) { 5_000 } else { longest + 1 };
    let enough = [length, length, length, length + 1, longer, longest, long];
    let short = [length - 1, shorter, 0, 1];
    let lengths = if random.percent(65) { &enough[..] } else { &short };
    random.pick(lengths)
}
