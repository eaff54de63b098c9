//! The steps of a plan and their bytes.

use crate::query::Query;

#[derive(Clone, Copy, Debug, PartialEq, Eq, Hash)]
pub enum Step {
    Load { relation: usize },
    Send { to: usize },
    Join { join: usize },
}

impl Step {
    /// Every step whose argument is in the query.
    pub fn all(query: &Query) -> impl Iterator<Item = Step> {
        let loads = (0..query.relations.len()).map(|relation| Step::Load { relation });
        let sends = (0..query.sites.len()).map(|to| Step::Send { to });
        let joins = (0..query.joins().len()).map(|join| Step::Join { join });
        loads.chain(sends).chain(joins)
    }

    /// The step of a kind and an argument, if the kind is known and the argument
    /// is in the query.
    pub fn from_bytes(query: &Query, kind: u8, argument: u8) -> Option<Step> {
        let argument = usize::from(argument);
        match kind {
            1 if argument < query.relations.len() => Some(Step::Load { relation: argument }),
            2 if argument < query.sites.len() => Some(Step::Send { to: argument }),
            3 if argument < query.joins().len() => Some(Step::Join { join: argument }),
            _ => None,
        }
    }

    pub fn bytes(self) -> [u8; 2] {
        match self {
            Step::Load { relation } => [1, relation as u8],
            Step::Send { to } => [2, to as u8],
            Step::Join { join } => [3, join as u8],
        }
    }
}

/// The plan's bytes: the count, then kind and argument of each step.
pub fn plan_bytes(steps: &[Step]) -> Vec<u8> {
    let count = [steps.len() as u8];
    let steps = steps.iter().flat_map(|step| step.bytes());
    count.into_iter().chain(steps).collect()
}
