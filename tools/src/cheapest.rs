//! The cheapest plan by the proved answers, its prices taken apart and their sum held to them.

use reference::units::Charge;

use crate::failure::Failure;
use crate::listing;
use crate::priced::{self, Priced};
use crate::proved::calls::Solved;
use crate::proved::loaded::Loaded;

/// What a solve answers, walked.
#[derive(Clone, Debug, PartialEq, Eq)]
pub enum Cheapest {
    Plan(Plan),
    NoRoute { trials: u64 },
}

#[derive(Clone, Debug, PartialEq, Eq)]
pub struct Plan {
    pub steps: Vec<Priced>,
    /// What the last sum, the proved solve and the proved check all come to.
    pub cost: Charge,
    pub trials: u64,
}

/// Solves. Where the sum of the tool's own prices, the proved cost and the proved check of the
/// plan are not one number, both are told, and there is no plan.
pub fn find(loaded: &mut Loaded) -> Result<Cheapest, Failure> {
    let (cost, trials, bytes) = match loaded.solve()? {
        Solved::NoRoute { trials } => return Ok(Cheapest::NoRoute { trials }),
        Solved::Plan { cost, trials, plan } => (cost, trials, plan),
    };
    let steps = listing::steps(&loaded.query, &bytes);
    let steps = steps.and_then(|steps| priced::walk(&loaded.query, &steps)).ok_or_else(|| {
        Failure::Fault(format!("by the tool's rules the proved plan {bytes:?} is not allowed"))
    })?;
    let sum = steps.last().map_or(0, |last| last.sum.0);
    if sum != cost {
        return Err(Failure::Fault(format!(
            "the proved cost is {cost}, and the prices of the plan's steps come to {sum}"
        )));
    }
    match loaded.calls.check(&bytes)? {
        Ok(checked) if checked == cost => {
            Ok(Cheapest::Plan(Plan { steps, cost: Charge(cost), trials }))
        }
        Ok(checked) => Err(Failure::Fault(format!(
            "the proved check of the plan comes to {checked}, and the proved cost is {cost}"
        ))),
        Err(refused) => Err(Failure::Fault(format!(
            "the proved check refuses the proved plan: refused {}",
            refused.number
        ))),
    }
}
