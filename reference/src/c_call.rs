//! The call for the report server: load and solve on a planner of its own.

use crate::limits::{MOST_CELLS, REFUSED};
use crate::method::Method;
use crate::planner::{Planner, Solved};
use crate::refusal::Refusal;
use crate::stated::Form;

/// The plan's length, 0 for no route, or 1,024 plus the refusal. Output bytes behind
/// the plan stay; all of them stay where no plan is written.
pub fn fanchuki_plan(query: &[u8], output: &mut [u8]) -> u64 {
    match load_and_solve(query, output) {
        Ok(Solved::Found { length, .. }) => length as u64,
        Ok(Solved::NoRoute { .. }) => 0,
        Err(refusal) => REFUSED + refusal.number(),
    }
}

fn load_and_solve(query: &[u8], output: &mut [u8]) -> Result<Solved, Refusal> {
    let mut planner = Planner::empty(Method::Rules);
    planner.load(query, Form::Sizes)?;
    planner.solve(&mut vec![0; MOST_CELLS], output)
}
