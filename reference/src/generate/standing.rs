//! What a list of calls has come to while it is made: the planner, and what the generator
//! itself knows of the query in force.

use std::cell::OnceCell;

use crate::method::Method;
use crate::planner::Planner;
use crate::query::Query;
use crate::script::Call;
use crate::solve::{self, Plan};

pub struct Standing {
    planner: Planner,
    /// Solved when it is first asked for; the generator's memory, and no state of the planner.
    cheapest: OnceCell<Option<Plan>>,
}

impl Standing {
    /// Before the first call.
    pub fn empty() -> Standing {
        Standing { planner: Planner::empty(Method::Rules), cheapest: OnceCell::new() }
    }

    pub fn query(&self) -> Option<&Query> {
        self.planner.query()
    }

    /// The plan that a solve writes, if there is a query and it has one.
    pub fn cheapest(&self) -> Option<&Plan> {
        let solved = || solve::solve(self.query()?, Method::Rules);
        self.cheapest.get_or_init(solved).as_ref()
    }

    /// Only loads and link change the query, so no other call is run here.
    pub fn add(&mut self, call: &Call) {
        if matches!(call, Call::Load { .. } | Call::Link(_)) {
            call.run(&mut self.planner);
            self.cheapest = OnceCell::new();
        }
    }
}
