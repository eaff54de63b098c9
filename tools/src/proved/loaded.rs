//! A query in force in the proved program `calls`, with what the tool knows of it.

use reference::check;
use reference::names::Names;
use reference::planner::Link;
use reference::query::{Line, Query};
use reference::units::Charge;

use crate::failure::Failure;
use crate::given::Given;
use crate::packed::refused::RefusedFile;
use crate::proved::calls::{Calls, Refused, Solved};

/// Sender and receiver, both listed and not one site.
pub type Ends = (usize, usize);

pub struct Loaded {
    pub calls: Calls,
    pub query: Query,
    pub names: Names,
    pub subqueries: u64,
}

impl Loaded {
    /// Where the program refuses the file its number is told, in the tool's words; where the
    /// two do not agree, that is.
    pub fn load(given: Given) -> Result<Loaded, Failure> {
        let mut calls = Calls::start()?;
        match (calls.load(&given.file, given.form)?, given.stated) {
            (Ok(loaded), Ok(stated)) => Ok(Loaded {
                calls,
                query: stated.query,
                names: given.names,
                subqueries: loaded.subqueries as u64,
            }),
            (Err(refused), Err(words)) if refused.number == words.number => {
                Err(Failure::Refused(words.to_string()))
            }
            (proved, own) => Err(otherwise(proved.err(), own.err())),
        }
    }

    /// Never refused: a query is in force, and the areas are enough. The prices of the plan's
    /// steps come to its cost, or it is not given.
    pub fn solve(&mut self) -> Result<Solved, Failure> {
        let solved = self.calls.solve()?;
        let solved = solved.map_err(|refused| {
            Failure::Fault(format!("the proved solve answers refused {}", refused.number))
        })?;
        agreed(&self.query, &solved)?;
        Ok(solved)
    }

    /// Replaces a line between two listed sites, in the proved program and in the tool's query.
    pub fn link(&mut self, (sender, receiver): Ends, line: Line) -> Result<(), Failure> {
        let linked = self.calls.link(Link {
            sender: sender as u64,
            receiver: receiver as u64,
            open: u64::from(line.open),
            fixed: line.fixed.0,
            rate: line.rate.0,
        })?;
        linked.map_err(|refused| {
            Failure::Fault(format!("the proved link answers refused {}", refused.number))
        })?;
        *self.query.line_mut(sender, receiver) = line;
        Ok(())
    }
}

/// Holds the cost that a proved program tells of its plan to the tool's own sum.
pub fn agreed(query: &Query, solved: &Solved) -> Result<(), Failure> {
    let Solved::Plan { cost, plan, .. } = solved else {
        return Ok(());
    };
    let own = match check::check(query, plan) {
        Ok(Charge(own)) if own == *cost => return Ok(()),
        Ok(Charge(own)) => format!("the prices of the plan's steps come to {own}"),
        Err(refusal) => format!("the tool refuses the plan with {}", refusal.number()),
    };
    Err(Failure::Fault(format!("the proved cost is {cost}, and {own}")))
}

/// The proved program and the tool do not judge a file alike: the refusal of each.
pub fn otherwise(proved: Option<Refused>, own: Option<RefusedFile>) -> Failure {
    let told = |number: Option<u64>| match number {
        None => "takes the file".to_string(),
        Some(number) => format!("refuses it with {number}"),
    };
    let proved = told(proved.map(|refused| refused.number));
    let own = told(own.map(|refused| refused.number));
    Failure::Fault(format!("the proved load {proved}, and the tool {own}"))
}
