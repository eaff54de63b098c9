//! What the older methods cost beside the optimum.

use crate::check;
use crate::method::Method;
use crate::query::{Line, Query};
use crate::solve;
use crate::step;
use crate::units::{Charge, Rate};

#[derive(Clone, Copy, Debug, PartialEq, Eq)]
pub enum Older {
    /// One operand of each join is a single relation.
    SingleOperand,
    /// Joins only at homes of the parts.
    OnlyHomes,
    /// Plans as if every line had the average amounts.
    EqualLines,
}

impl Older {
    pub const ALL: [Older; 3] = [Older::SingleOperand, Older::OnlyHomes, Older::EqualLines];

    /// The true cost of the method's plan over the least cost; all lines are open.
    pub fn ratio(self, query: &Query, least: Charge) -> f64 {
        let cost = match self {
            Older::SingleOperand => planned(query, query, Method::SingleOperand),
            Older::OnlyHomes => planned(query, query, Method::OnlyHomes),
            Older::EqualLines => planned(&with_equal_lines(query), query, Method::Rules),
        };
        cost.0 as f64 / least.0 as f64
    }
}

/// The plan made for one query, priced in the other.
pub fn planned(planned_for: &Query, priced_in: &Query, method: Method) -> Charge {
    let plan =
        solve::solve(planned_for, method).expect("all lines are open and all sites may join");
    check::check(priced_in, &step::plan_bytes(&plan.steps))
        .expect("a plan of the tables is allowed")
}

/// The query with the average fixed amount and rate on every line, rounded.
fn with_equal_lines(query: &Query) -> Query {
    let count = query.lines.len() as u64;
    let average = |sum: u64| (sum + count / 2) / count;
    let fixed = average(query.lines.iter().map(|line| line.fixed.0).sum());
    let rate = average(query.lines.iter().map(|line| line.rate.0).sum());
    let mut equal = query.clone();
    equal.lines.fill(Line { open: true, fixed: Charge(fixed), rate: Rate(rate) });
    equal
}

/// Ratios of one method over many queries.
#[derive(Clone, Copy, Debug, Default)]
pub struct Ratios {
    count: u64,
    dearer: u64,
    sum: f64,
    worst: f64,
}

impl Ratios {
    pub fn add(&mut self, ratio: f64) {
        self.count += 1;
        self.dearer += u64::from(ratio > 1.0);
        self.sum += ratio;
        self.worst = self.worst.max(ratio);
    }

    /// How many of a hundred queries became dearer.
    pub fn often(&self) -> f64 {
        100.0 * self.dearer as f64 / self.count as f64
    }

    /// Over all queries, those that became no dearer among them.
    pub fn mean(&self) -> f64 {
        self.sum / self.count as f64
    }

    pub fn worst(&self) -> f64 {
        self.worst
    }
}
