//! Solve: the cheapest plan, written from the tables, and the trials.

use crate::carriage::Carriage;
use crate::method::Method;
use crate::query::Query;
use crate::sets::{self, Set};
use crate::step::Step;
use crate::tables::Tables;
use crate::tree;
use crate::units::Charge;

/// A plan and its cost.
#[derive(Clone, Debug, PartialEq, Eq)]
pub struct Plan {
    pub steps: Vec<Step>,
    pub cost: Charge,
}

/// The cheapest plan, or none where there is no route.
pub fn solve(query: &Query, method: Method) -> Option<Plan> {
    let all = sets::everything(query.relations.len());
    let tables = Tables::fill(query, method);
    let cost = tables.delivered(all, query.delivery).cost?;
    let mut steps = Vec::new();
    write_delivered(&tables, all, query.delivery, &mut steps);
    Some(Plan { steps, cost })
}

/// s times the sum over subqueries of their relations less one.
pub fn trials(query: &Query) -> u64 {
    let joins_tried = query.subqueries().iter().map(|&subquery| sets::count(subquery) - 1);
    (query.sites.len() * joins_tried.sum::<usize>()) as u64
}

/// The result made at the site where it is cheapest, then the sends of its route.
fn write_delivered(tables: &Tables, subquery: Set, to: usize, steps: &mut Vec<Step>) {
    let from = tables.delivered(subquery, to).by;
    if sets::count(subquery) == 1 {
        steps.push(Step::Load { relation: sets::lowest(subquery) });
    } else {
        write_joined(tables, subquery, from, steps);
    }
    let carriage = Carriage::of(tables.query, tables.method, subquery);
    if let Some(route) = carriage.route(from, to) {
        let unwritten = match tables.method {
            Method::LastStopOnly => route.sends.saturating_sub(1),
            _ => 0,
        };
        steps.extend(route.stops().skip(unwritten).map(|to| Step::Send { to }));
    }
}

/// The part with the join's first relation, the other part, and the join.
fn write_joined(tables: &Tables, subquery: Set, at: usize, steps: &mut Vec<Step>) {
    let join = tables.joined(subquery, at).by;
    let (mut first, mut other) = tree::parts(tables.query.joins(), subquery, join);
    if tables.method == Method::LowerPartFirst && sets::lowest(other) < sets::lowest(first) {
        std::mem::swap(&mut first, &mut other);
    }
    write_delivered(tables, first, at, steps);
    write_delivered(tables, other, at, steps);
    steps.push(Step::Join { join });
}
