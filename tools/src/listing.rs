//! A plan's steps as lines, with names where there are some.

use std::fmt::Write;

use reference::names::Names;
use reference::query::Query;
use reference::step::Step;

use crate::failure::Failure;
use crate::proved::answers::Solved;

/// The steps of a plan's bytes; nothing where they are not a plan of the query.
pub fn steps(query: &Query, plan: &[u8]) -> Option<Vec<Step>> {
    let (count, steps) = plan.split_first()?;
    if steps.len() != 2 * usize::from(*count) {
        return None;
    }
    steps.chunks_exact(2).map(|step| Step::from_bytes(query, step[0], step[1])).collect()
}

/// As `plan` prints it, but for the names.
pub fn step(names: &Names, step: Step) -> String {
    match step {
        Step::Load { relation } => format!("load {}", names.relation(relation)),
        Step::Send { to } => format!("send {}", names.site(to)),
        Step::Join { join } => format!("join {join}"),
    }
}

/// Kind and argument, which need not be in the query.
pub fn raw(names: &Names, bytes: [u8; 2]) -> String {
    let argument = usize::from(bytes[1]);
    match bytes[0] {
        1 => step(names, Step::Load { relation: argument }),
        2 => step(names, Step::Send { to: argument }),
        3 => step(names, Step::Join { join: argument }),
        kind => format!("kind {kind} argument {argument}"),
    }
}

/// The whole listing, the heading first.
pub fn listing(names: &Names, steps: &[Step], cost: u64, trials: u64) -> String {
    let mut text = format!("plan {} cost {cost} trials {trials}\n", steps.len());
    for &one in steps {
        writeln!(text, "{}", step(names, one)).expect("a string takes all");
    }
    text
}

/// What a solve answers: the listing, or that there is no route.
pub fn solved(query: &Query, names: &Names, solved: &Solved) -> Result<String, Failure> {
    match solved {
        Solved::NoRoute { trials } => Ok(no_route(*trials)),
        Solved::Plan { cost, trials, plan } => {
            let steps = steps(query, plan)
                .ok_or_else(|| Failure::Fault(format!("no plan of the query: {plan:?}")))?;
            Ok(listing(names, &steps, *cost, *trials))
        }
    }
}

pub fn no_route(trials: u64) -> String {
    format!("no route trials {trials}\n")
}
