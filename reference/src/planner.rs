//! The standing state and the calls on it. State is tested before input, and a
//! refusal leaves state and output as they were.

use crate::check;
use crate::decode;
use crate::limits::{MOST_FIXED, MOST_RATE};
use crate::method::Method;
use crate::query::{Line, Query};
use crate::refusal::Refusal;
use crate::solve;
use crate::stated::Form;
use crate::step;
use crate::units::{Charge, Rate};

/// A query with its lines, or nothing. The method says how it solves; no call changes it.
#[derive(Clone, Debug)]
pub struct Planner {
    query: Option<Query>,
    method: Method,
}

/// What an admitted load answers.
#[derive(Clone, Copy, Debug, PartialEq, Eq)]
pub struct Loaded {
    pub relations: usize,
    pub subqueries: usize,
}

/// What an admitted solve answers: of the plan that it wrote, or that there is none.
#[derive(Clone, Copy, Debug, PartialEq, Eq)]
pub enum Solved {
    Found { cost: Charge, length: usize, trials: u64 },
    NoRoute { trials: u64 },
}

/// The arguments of a link call, as wide as they come.
#[derive(Clone, Copy, Debug, PartialEq, Eq)]
pub struct Link {
    pub sender: u64,
    pub receiver: u64,
    pub open: u64,
    pub fixed: u64,
    pub rate: u64,
}

impl Planner {
    pub fn empty(method: Method) -> Planner {
        Planner { query: None, method }
    }

    pub fn query(&self) -> Option<&Query> {
        self.query.as_ref()
    }

    /// Load, or load from rows. How the sizes were stated is not kept.
    pub fn load(&mut self, file: &[u8], form: Form) -> Result<Loaded, Refusal> {
        let query = decode::decode(file, form)?.query;
        let (relations, subqueries) = (query.relations.len(), query.subqueries().len());
        self.query = Some(query);
        Ok(Loaded { relations, subqueries })
    }

    pub fn link(&mut self, link: Link) -> Result<(), Refusal> {
        let query = self.query.as_mut().ok_or(Refusal::NothingLoaded)?;
        let sites = query.sites.len() as u64;
        if link.sender >= sites || link.receiver >= sites || link.sender == link.receiver {
            return Err(Refusal::LinkSites);
        }
        if link.open > 1 || link.fixed > MOST_FIXED || link.rate > MOST_RATE {
            return Err(Refusal::OutOfRange);
        }
        let line = Line { open: link.open == 1, fixed: Charge(link.fixed), rate: Rate(link.rate) };
        *query.line_mut(link.sender as usize, link.receiver as usize) = line;
        Ok(())
    }

    /// Writes the cheapest plan to the front of the output. Only a plan that was found can
    /// be too long for it, so the output is judged last. The model asks for the cells that the
    /// rules say are needed, and leaves all of them as they are.
    pub fn solve(&self, work: &mut [u64], output: &mut [u8]) -> Result<Solved, Refusal> {
        let query = self.query.as_ref().ok_or(Refusal::NothingLoaded)?;
        if work.len() < query.cells_needed() {
            return Err(Refusal::FewCells);
        }
        let trials = solve::trials(query);
        let Some(found) = solve::solve(query, self.method) else {
            return Ok(Solved::NoRoute { trials });
        };
        let plan = step::plan_bytes(&found.steps);
        let front = output.get_mut(..plan.len()).ok_or(Refusal::ShortOutput)?;
        front.copy_from_slice(&plan);
        Ok(Solved::Found { cost: found.cost, length: plan.len(), trials })
    }

    pub fn check(&self, plan: &[u8]) -> Result<Charge, Refusal> {
        let query = self.query.as_ref().ok_or(Refusal::NothingLoaded)?;
        check::check(query, plan)
    }
}
