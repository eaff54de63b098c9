//! Solves that go wrong in one way each, in their answer or in what they are lent; the
//! comparison of call lists stops at every one of them. Which cells they ask for and which they
//! use is in faulty_cells.rs.

use std::io;

use reference::answers;
use reference::compare::calls;
use reference::compare::program::{Answering, Feed};
use reference::limits::{LONGEST_PLAN, MOST_CELLS};
use reference::method::Method;
use reference::planner::{Planner, Solved};
use reference::refusal::Refusal;
use reference::script::Call;

type Answer = Result<Solved, Refusal>;

/// What stands in for the planner's solve.
type Solve = fn(&Planner, &mut [u64], &mut [u8]) -> Answer;

/// Which refusal is judged when, and what is answered.
const WRONG_ANSWERS: [(&str, Solve); 10] = [
    ("21 before 20", |planner, work, output| match work.is_empty() {
        true => Err(Refusal::FewCells),
        false => planner.solve(work, output),
    }),
    ("23 before 20", |planner, work, output| match output.is_empty() {
        true => Err(Refusal::ShortOutput),
        false => planner.solve(work, output),
    }),
    ("23 before 21", |planner, work, output| match on_enough_cells(planner, output) {
        Err(Refusal::ShortOutput) => Err(Refusal::ShortOutput),
        _ => planner.solve(work, output),
    }),
    ("no route before 21", |planner, work, output| match on_enough_cells(planner, output) {
        Ok(Solved::NoRoute { trials }) => Ok(Solved::NoRoute { trials }),
        _ => planner.solve(work, output),
    }),
    ("23 before no route", |planner, work, output| match planner.solve(work, output) {
        Ok(Solved::NoRoute { .. }) if output.is_empty() => Err(Refusal::ShortOutput),
        answer => answer,
    }),
    ("a byte too many asked for", |planner, work, output| {
        asking_for(|plan| plan + 1, planner, work, output)
    }),
    ("a byte too few asked for", |planner, work, output| {
        asking_for(|plan| plan - 1, planner, work, output)
    }),
    ("the longest plan's length asked for", |planner, work, output| {
        asking_for(|_| LONGEST_PLAN, planner, work, output)
    }),
    ("the output's length answered", |planner, work, output| {
        match planner.solve(work, output)? {
            Solved::Found { cost, trials, .. } => {
                Ok(Solved::Found { cost, length: output.len(), trials })
            }
            no_route => Ok(no_route),
        }
    }),
    ("no route with no trials", |planner, work, output| match planner.solve(work, output)? {
        Solved::NoRoute { .. } => Ok(Solved::NoRoute { trials: 0 }),
        found => Ok(found),
    }),
];

/// What is written where nothing may be.
const WRONG_WRITES: [(&str, Solve); 8] = [
    ("output written before 23 is known", |planner, work, output| {
        let answer = planner.solve(work, output);
        if answer == Err(Refusal::ShortOutput) {
            output.copy_from_slice(&plan(planner)[..output.len()]);
        }
        answer
    }),
    ("output cleared on 20", |planner, work, output| {
        output_cleared(Refusal::NothingLoaded, planner, work, output)
    }),
    ("output cleared on 21", |planner, work, output| {
        output_cleared(Refusal::FewCells, planner, work, output)
    }),
    ("output cleared on 23", |planner, work, output| {
        output_cleared(Refusal::ShortOutput, planner, work, output)
    }),
    ("output cleared on no route", |planner, work, output| {
        let answer = planner.solve(work, output)?;
        if matches!(answer, Solved::NoRoute { .. }) {
            output.fill(0);
        }
        Ok(answer)
    }),
    ("bytes past the plan cleared", |planner, work, output| {
        let answer = planner.solve(work, output);
        if let Ok(Solved::Found { length, .. }) = answer {
            output[length..].fill(0);
        }
        answer
    }),
    ("cells written on 20", |planner, work, output| {
        cells_written(Refusal::NothingLoaded, planner, work, output)
    }),
    ("cells written on 21", |planner, work, output| {
        cells_written(Refusal::FewCells, planner, work, output)
    }),
];

/// What the model answers on enough cells, with nothing written.
fn on_enough_cells(planner: &Planner, output: &[u8]) -> Answer {
    planner.solve(&mut [0; MOST_CELLS], &mut output.to_vec())
}

/// The plan of the query in force, and zeros behind it.
fn plan(planner: &Planner) -> [u8; LONGEST_PLAN] {
    let mut plan = [0; LONGEST_PLAN];
    planner.solve(&mut [0; MOST_CELLS], &mut plan).expect("the output is long enough");
    plan
}

/// 23 where the output is shorter than what is asked for by the plan's length, which is
/// written as far as it goes.
fn asking_for(
    asked: fn(usize) -> usize,
    planner: &Planner,
    work: &mut [u64],
    output: &mut [u8],
) -> Answer {
    let answer = planner.solve(work, &mut [0; LONGEST_PLAN])?;
    if let Solved::Found { length, .. } = answer {
        if output.len() < asked(length) {
            return Err(Refusal::ShortOutput);
        }
        let written = length.min(output.len());
        output[..written].copy_from_slice(&plan(planner)[..written]);
    }
    Ok(answer)
}

/// The first byte is cleared where the refusal is this one.
fn output_cleared(on: Refusal, planner: &Planner, work: &mut [u64], output: &mut [u8]) -> Answer {
    let answer = planner.solve(work, output);
    if answer == Err(on) && !output.is_empty() {
        output[0] = 0;
    }
    answer
}

/// The first cell is written where the refusal is this one.
fn cells_written(on: Refusal, planner: &Planner, work: &mut [u64], output: &mut [u8]) -> Answer {
    let answer = planner.solve(work, output);
    if answer == Err(on) && !work.is_empty() {
        work[0] = 0;
    }
    answer
}

/// The model with another solve.
struct With(Solve);

impl Answering for With {
    fn run(&self, mut script: &[u8], _: Feed) -> io::Result<String> {
        let With(solve) = self;
        let mut planner = Planner::empty(Method::Rules);
        let mut text = String::new();
        while let Some(call) = Call::next(&mut script) {
            let lines = match call {
                Call::Solve { cells, output } => {
                    answers::solve_lines(&planner, cells, output, solve)
                }
                _ => call.run(&mut planner),
            };
            text.extend(lines.into_iter().map(|line| line + "\n"));
        }
        Ok(text)
    }
}

#[test]
fn the_right_solve_passes() {
    assert!(calls::compare(&With(Planner::solve), 62, 20).unwrap().is_ok());
}

#[test]
fn every_fault_is_found() {
    for (fault, solve) in WRONG_ANSWERS.into_iter().chain(WRONG_WRITES) {
        let compared = calls::compare(&With(solve), calls::DEFAULT_SEED, calls::DEFAULT_LISTS);
        let Err(mismatch) = compared.unwrap() else {
            panic!("{fault} is not found");
        };
        println!("== {fault}\n{mismatch}");
        assert!(mismatch.calls.len() <= 4, "{fault}: {mismatch}");
    }
}
