//! What several tests need.

use std::io;

use reference::answers;
use reference::compare::program::{Answering, Feed};
use reference::method::Method;
use reference::pinned::Worked;
use reference::planner::Planner;
use reference::query::Query;
use reference::refusal::Refusal;
use reference::script::Call;
use reference::units::Charge;
use reference::{check, exhaustive, solve, step};

/// Holds solve, check and the search to what was worked out.
pub fn hold(worked: &Worked) {
    let (query, cost) = (&worked.query, Charge(worked.cost));
    let plan = solve::solve(query, Method::Rules).expect(worked.what);
    let written = (plan.cost, step::plan_bytes(&plan.steps));
    assert_eq!(written, (cost, worked.plan.clone()), "{}", worked.what);
    assert_eq!(check::check(query, &worked.plan), Ok(cost), "{}", worked.what);
    assert_eq!(exhaustive::cheapest(query), Ok(Some(cost)), "{}", worked.what);
}

/// The model with another check.
pub struct WithCheck(pub fn(&Query, &[u8]) -> Result<Charge, Refusal>);

impl Answering for WithCheck {
    fn run(&self, mut script: &[u8], _: Feed) -> io::Result<String> {
        let mut planner = Planner::empty(Method::Rules);
        let mut text = String::new();
        while let Some(call) = Call::next(&mut script) {
            let lines = match (&call, planner.query()) {
                (Call::Check { plan }, Some(query)) => {
                    vec![answers::check_line(self.0(query, plan))]
                }
                _ => call.run(&mut planner),
            };
            text.extend(lines.into_iter().map(|line| line + "\n"));
        }
        Ok(text)
    }
}
