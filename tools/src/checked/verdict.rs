//! The proved check's verdict on a plan, in the words of the model's walk.

use std::cmp::Ordering;

use reference::check;
use reference::names::Names;
use reference::refusal::Refusal;
use reference::units::Charge;

use crate::checked::broken;
use crate::checked::plan_text::PlanText;
use crate::done::Done;
use crate::failure::Failure;
use crate::listing;
use crate::proved::calls::{Refused, Solved};
use crate::proved::loaded::Loaded;

/// Where the model does not come to the same, that is told.
pub fn verdict(loaded: &mut Loaded, plan: &PlanText) -> Result<Done, Failure> {
    let proved = loaded.calls.check(&plan.plan)?;
    match (proved, check::check(&loaded.query, &plan.plan)) {
        (Ok(cost), Ok(Charge(own))) if cost == own => accepted(loaded, cost),
        (Err(proved), Err(own)) if agree(proved, own) => {
            let printed = refused(loaded, plan, own);
            Ok(Done { code: 1, ..Done::printing(printed) })
        }
        (proved, own) => {
            let proved = told(proved.map_err(|refused| (refused.number, refused.place)));
            let place = |refusal: Refusal| refusal.place().map(|place| place as u64);
            let own = told(own.map(|cost| cost.0).map_err(|it| (it.number(), place(it))));
            Err(Failure::Fault(format!(
                "the proved check answers {proved}, the tool comes to {own}"
            )))
        }
    }
}

fn told(answer: Result<u64, (u64, Option<u64>)>) -> String {
    match answer {
        Ok(cost) => format!("cost {cost}"),
        Err((number, Some(place))) => format!("refused {number} at {place}"),
        Err((number, None)) => format!("refused {number}"),
    }
}

fn agree(proved: Refused, own: Refusal) -> bool {
    let place = own.place().map(|place| place as u64);
    proved.number == own.number() && proved.place == place
}

fn accepted(loaded: &mut Loaded, cost: u64) -> Result<Done, Failure> {
    let Solved::Plan { cost: cheapest, .. } = loaded.solve()? else {
        return Err(Failure::Fault(format!("check answers {cost}, and solve no route")));
    };
    let compared = match cost.cmp(&cheapest) {
        Ordering::Equal => "this is the cheapest cost".to_string(),
        Ordering::Greater => format!("the cheapest costs {cheapest}, {} less", cost - cheapest),
        Ordering::Less => {
            return Err(Failure::Fault(format!("check answers {cost}, and solve {cheapest}")));
        }
    };
    Ok(Done::printing(format!("accepted at {cost}\n{compared}\n")))
}

/// The number, the place and the reason.
fn refused(loaded: &Loaded, plan: &PlanText, refusal: Refusal) -> String {
    let (query, names) = (&loaded.query, &loaded.names);
    let number = refusal.number();
    let at = match refusal {
        Refusal::WrongEnd { count } => format!(" at the end, after step {}", count - 1),
        _ => refusal.place().map_or_else(String::new, |place| at_step(names, plan, place)),
    };
    format!("refused {number}{at}: {}\n", broken::reason(query, names, &plan.plan, refusal))
}

/// Where the step stands, and the step itself.
fn at_step(names: &Names, plan: &PlanText, place: usize) -> String {
    let line = plan.lines.get(place).map_or_else(String::new, |line| format!(" (line {line})"));
    let byte = |offset: usize| plan.plan.get(2 * place + offset).copied().unwrap_or_default();
    format!(" at step {place}{line}, {}", listing::raw(names, [byte(1), byte(2)]))
}
