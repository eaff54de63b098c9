//! The program `calls` held to the model, line by line, its two loads to each other, its room
//! to its load and solve, and its solve to itself with other cells. A list of calls on which
//! they differ is made as short as it can be before it is printed.

use std::io;

use crate::compare::alike;
use crate::compare::calls_mismatch::{script, shortest, Compared, Mismatch};
use crate::compare::program::{Answering, Feed};
use crate::compare::tally::Tally;
use crate::compare::{own_answers, own_figures};
use crate::generate::calls;
use crate::method::Method;
use crate::pinned_calls::{self, SOLVE};
use crate::pinned_rooms;
use crate::pinned_route_calls;
use crate::pinned_row_calls;
use crate::pinned_solves;
use crate::planner::Planner;
use crate::random::Random;
use crate::script::Call;

pub const DEFAULT_SEED: u64 = 1;
/// Lists of calls in a run.
pub const DEFAULT_LISTS: u64 = 200;
const CALLS_IN_A_LIST: usize = 400;
/// Calls in the first list, whose script is megabytes long.
const CALLS_IN_THE_FIRST: usize = 10_000;
/// Kinds that no record has; one of them ends the run.
const UNKNOWN: [u8; 5] = [0, 3, 4, 9, 255];

/// The fixed lists, then so many random ones, then every tree, then queries with ties.
pub fn compare(
    program: &impl Answering,
    seed: u64,
    lists: u64,
) -> io::Result<Result<Tally, Box<Mismatch>>> {
    let mut tally = Tally::default();
    for (calls, tail) in fixed() {
        if let Err(mismatch) = compare_list(program, &calls, &tail, Feed::Whole, &mut tally)? {
            return Ok(Err(mismatch));
        }
    }
    for case in 0..lists {
        let mut random = Random::for_case(seed, case);
        let length = if case == 0 { CALLS_IN_THE_FIRST } else { CALLS_IN_A_LIST };
        let calls = calls::calls(&mut random, length);
        let tail = tail(&mut random);
        let feed = if case % 8 == 0 { Feed::Pieces(997) } else { Feed::Whole };
        if let Err(mismatch) = compare_list(program, &calls, &tail, feed, &mut tally)? {
            return Ok(Err(mismatch));
        }
    }
    if let Err(mismatch) = own_figures::compare(program, seed, &mut tally)? {
        return Ok(Err(mismatch));
    }
    Ok(own_answers::compare(program, seed, &mut tally)?.map(|()| tally))
}

/// Holds the list to the model, then its loads from rows to ordinary loads.
fn compare_list(
    program: &impl Answering,
    calls: &[Call],
    tail: &[u8],
    feed: Feed,
    tally: &mut Tally,
) -> Compared {
    if let Err(mismatch) = compare_script(program, calls, tail, feed, tally)? {
        let again = |calls: &[Call], tail: &[u8]| {
            compare_script(program, calls, tail, Feed::Whole, &mut Tally::default())
        };
        return Ok(Err(Box::new(shortest(*mismatch, again)?)));
    }
    if let Err(mismatch) = alike::compare(program, calls, tally)? {
        let again =
            |calls: &[Call], _: &[u8]| alike::compare(program, calls, &mut Tally::default());
        return Ok(Err(Box::new(shortest(*mismatch, again)?)));
    }
    Ok(Ok(()))
}

fn compare_script(
    program: &impl Answering,
    calls: &[Call],
    tail: &[u8],
    feed: Feed,
    tally: &mut Tally,
) -> Compared {
    let printed = program.run(&script(calls, tail), feed)?;
    let found: Vec<&str> = printed.split_inclusive('\n').collect();
    let mut planner = Planner::empty(Method::Rules);
    let mut line = 0;
    let differ = |count: usize, tail: &[u8], expected: Vec<String>, found: &[&str]| {
        let found = found.iter().map(|text| text.to_string()).collect();
        let (calls, tail) = (calls[..count].to_vec(), tail.to_vec());
        Ok(Err(Box::new(Mismatch { calls, tail, expected, found })))
    };
    for (number, call) in calls.iter().enumerate() {
        let lines = call.run(&mut planner);
        let expected: Vec<String> = lines.iter().map(|text| format!("{text}\n")).collect();
        let end = (line + expected.len()).min(found.len());
        if found[line..end] != expected[..] {
            return differ(number + 1, &[], expected, &found[line..end]);
        }
        lines.iter().for_each(|text| tally.add(&kind(call, text)));
        line = end;
    }
    if line < found.len() {
        return differ(calls.len(), tail, Vec::new(), &found[line..]);
    }
    Ok(Ok(()))
}

/// Lists of calls and what stands behind them: nothing, or an unknown record.
fn fixed() -> impl Iterator<Item = (Vec<Call>, Vec<u8>)> {
    let lists = pinned_rooms::lists().into_iter().chain(pinned_calls::lists());
    let lists = lists.chain(pinned_solves::lists()).chain(pinned_row_calls::lists());
    let lists = lists.chain(pinned_route_calls::lists());
    let alone = lists.map(|calls| (calls, Vec::new()));
    alone.chain(UNKNOWN.map(|kind| (vec![SOLVE], unknown_then_solve(kind))))
}

/// What may stand behind the last record: nothing, a cut record, or an unknown one
/// with good records behind it.
fn tail(random: &mut Random) -> Vec<u8> {
    let (solve, room) = (SOLVE.record(), pinned_rooms::room(3, 2, &[0, 1, 1, 2]).record());
    match random.below(7) {
        0 => vec![random.pick(&[1, 2, 5, 6, 7, 8])],
        1 => vec![random.pick(&[1, 7]), 200, 0, 3, 3, 3],
        2 => vec![2; 40],
        3 => solve[..random.between(2, 8) as usize].to_vec(),
        4 => room[..random.between(2, 22) as usize].to_vec(),
        5 => unknown_then_solve(random.pick(&UNKNOWN)),
        _ => Vec::new(),
    }
}

fn unknown_then_solve(kind: u8) -> Vec<u8> {
    [vec![kind], SOLVE.record()].concat()
}

/// The call and its answer without the figures.
fn kind(call: &Call, answer: &str) -> String {
    let name = match call {
        Call::Load { form, .. } => form.load_name(),
        Call::Link(_) => "link",
        Call::Solve { .. } => "solve",
        Call::Check { .. } => "check",
        Call::Room(_) => "room",
    };
    let mut words = answer.split(' ');
    match (words.next(), words.next()) {
        (Some("refused"), Some(number)) => format!("{name}, refused {number}"),
        (Some(word @ ("cells" | "output")), Some(state)) => format!("{name}, {word} {state}"),
        (Some("no-route"), _) => format!("{name}, no route"),
        _ => format!("{name}, answered"),
    }
}
