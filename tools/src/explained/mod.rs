//! A plan explained: its steps with their prices, what each site and line has of the cost, and
//! what the next best would have been.

pub mod next_best;
pub mod no_route;
pub mod parts;
pub mod shares;
pub mod steps;
pub mod table;

use reference::names::Names;
use reference::query::Query;
use reference::units::Charge;

use crate::cheapest::Plan;
use crate::explained::parts::{LinePart, Part, SitePart};
use crate::failure::Failure;
use crate::proved::loaded::Loaded;

pub struct Explained {
    pub plan: Plan,
    pub sites: Vec<SitePart>,
    pub lines: Vec<LinePart>,
}

impl Explained {
    /// Of the plan of the query in force, which is in force afterwards too.
    pub fn find(loaded: &mut Loaded, plan: Plan) -> Result<Explained, Failure> {
        let mut lines = Vec::new();
        for (which, share) in shares::of_lines(&plan.steps) {
            let without = next_best::without_line(loaded, which.0, which.1)?;
            lines.push(Part { which, share, without: no_less(plan.cost, without)? });
        }
        let mut sites = Vec::new();
        for (which, share) in shares::of_sites(&plan.steps) {
            let without = next_best::without_joins(loaded, which)?;
            sites.push(Part { which, share, without: no_less(plan.cost, without)? });
        }
        Ok(Explained { plan, sites, lines })
    }

    pub fn print(&self, query: &Query, names: &Names, subqueries: u64) -> String {
        let Plan { steps, cost, trials } = &self.plan;
        [
            format!("plan {} cost {} trials {trials}\n\n", steps.len(), cost.0),
            steps::table(names, steps),
            format!("\ntrials {trials}\nsubqueries {subqueries}\n\n"),
            parts::sites(names, *cost, &self.sites),
            self.idle(query, names),
            "\n".into(),
            parts::lines(names, *cost, &self.lines),
        ]
        .concat()
    }

    /// The sites that have no share.
    fn idle(&self, query: &Query, names: &Names) -> String {
        let joins = |site: usize| self.sites.iter().any(|part| part.which == site);
        let idle: Vec<String> = (0..query.sites.len())
            .filter(|&site| !joins(site))
            .map(|site| names.the_site(site))
            .collect();
        if self.sites.is_empty() || idle.is_empty() {
            return String::new();
        }
        format!("no joins at {}\n", idle.join(", "))
    }
}

/// No plan is cheaper for being allowed less.
fn no_less(cost: Charge, next: Option<u64>) -> Result<Option<Charge>, Failure> {
    match next {
        Some(next) if next < cost.0 => Err(Failure::Fault(format!(
            "with less allowed the proved cost is {next}, and before it was {}",
            cost.0
        ))),
        next => Ok(next.map(Charge)),
    }
}
