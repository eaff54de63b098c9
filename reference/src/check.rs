//! Check: the cost of a lent plan, or the refusal with its place.

use crate::limits::MOST_STEPS;
use crate::query::Query;
use crate::refusal::Refusal;
use crate::rules::{Broken, Stack};
use crate::step::Step;
use crate::units::Charge;

pub fn check(query: &Query, plan: &[u8]) -> Result<Charge, Refusal> {
    let Some((&count, steps)) = plan.split_first() else {
        return Err(Refusal::PlanLength);
    };
    let count = usize::from(count);
    if !(1..=MOST_STEPS).contains(&count) || steps.len() != 2 * count {
        return Err(Refusal::PlanLength);
    }

    let mut stack = Stack::default();
    let mut cost = Charge(0);
    for (place, bytes) in steps.chunks_exact(2).enumerate() {
        let Some(step) = Step::from_bytes(query, bytes[0], bytes[1]) else {
            return Err(Refusal::UnknownStep { step: place });
        };
        let price = stack.step(query, step).map_err(|broken| refused(broken, place))?;
        cost = cost + price;
    }
    if !stack.is_finished(query) {
        return Err(Refusal::WrongEnd { count });
    }
    Ok(cost)
}

fn refused(broken: Broken, step: usize) -> Refusal {
    match broken {
        Broken::LoadedBefore => Refusal::LoadedBefore { step },
        Broken::SendNotAllowed => Refusal::SendNotAllowed { step },
        Broken::JoinNotAllowed => Refusal::JoinNotAllowed { step },
    }
}
