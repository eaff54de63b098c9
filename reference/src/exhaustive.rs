//! The exhaustive program: the cheapest of ALL allowed plans, found by taking every
//! step that the plan rules allow from every stack that can be reached. It knows the
//! rules and the prices and nothing of the two tables.
//!
//! It has no bound on the steps and needs none, since there are only so many stacks, of which
//! each is followed once. So no plan of any number of steps is cheaper than what it finds, and
//! where it finds none, there is none of any number of steps.

use std::cmp::Reverse;
use std::collections::{BinaryHeap, HashMap};
use std::fmt;

use crate::query::Query;
use crate::rules::Stack;
use crate::sets::{self, Set};
use crate::step::Step;
use crate::units::Charge;

/// The search keeps every stack that it reaches. So many take less than a gigabyte and a
/// minute: all queries of four relations, five at seven sites, six at three, nine at one.
pub const MOST_STACKS: u64 = 6_000_000;

/// A query that the search does not begin with, and how many stacks it could reach.
#[derive(Clone, Copy, Debug, PartialEq, Eq)]
pub struct TooLarge {
    pub stacks: u64,
}

impl fmt::Display for TooLarge {
    fn fmt(&self, f: &mut fmt::Formatter) -> fmt::Result {
        write!(
            f,
            "too large: the search could reach {} stacks and keeps at most {MOST_STACKS}",
            self.stacks
        )
    }
}

/// How many stacks a plan can reach at most: results that share no relation, in any
/// order, each in one of its forms.
pub fn stacks(query: &Query) -> u64 {
    let all = sets::everything(query.relations.len());
    let mut on_top_of = vec![0; usize::from(all) + 1];
    for held in (0..=all).rev() {
        let results = query.subqueries().iter().filter(|&&result| result & held == 0);
        let more =
            results.map(|&result| forms(query, result) * on_top_of[usize::from(held | result)]);
        on_top_of[usize::from(held)] = 1 + more.sum::<u64>();
    }
    on_top_of[0]
}

/// A relation is bare at its home or was sent to a site, its home too; a larger result was
/// joined at a site or sent to one. At one site nothing is sent.
fn forms(query: &Query, result: Set) -> u64 {
    let sites = query.sites.len() as u64;
    let sent = if sites == 1 { 0 } else { sites };
    if sets::count(result) == 1 {
        1 + sent
    } else {
        sites + sent
    }
}

/// The cheapest cost of an allowed plan, or none. Stacks are taken in the order of
/// what it costs to reach them, so the first finished one is the cheapest; two ways
/// to one stack go on alike, so only the cheaper is followed.
pub fn cheapest(query: &Query) -> Result<Option<Charge>, TooLarge> {
    let most = stacks(query);
    if most > MOST_STACKS {
        return Err(TooLarge { stacks: most });
    }
    Ok(search(query))
}

fn search(query: &Query) -> Option<Charge> {
    let steps: Vec<Step> = Step::all(query).collect();
    let mut reached: HashMap<Stack, Charge> = HashMap::new();
    let mut waiting = BinaryHeap::from([Reverse((Charge(0), Stack::default()))]);

    while let Some(Reverse((cost, stack))) = waiting.pop() {
        if stack.is_finished(query) {
            return Some(cost);
        }
        if reached.get(&stack).is_some_and(|&least| least < cost) {
            continue;
        }
        let mut next = stack.clone();
        for &step in &steps {
            let Ok(price) = next.step(query, step) else {
                continue;
            };
            let next_cost = cost + price;
            if reached.get(&next).is_none_or(|&least| next_cost < least) {
                reached.insert(next.clone(), next_cost);
                waiting.push(Reverse((next_cost, next)));
            }
            next = stack.clone();
        }
    }
    None
}

/// Visits every allowed plan of up to so many steps with its cost, one after the other and none
/// left out. Only for the smallest queries.
pub fn every_plan(query: &Query, most_steps: usize, visit: &mut impl FnMut(&[Step], Charge)) {
    extend(query, &Stack::default(), most_steps, &mut Vec::new(), Charge(0), visit);
}

fn extend(
    query: &Query,
    stack: &Stack,
    steps_left: usize,
    taken: &mut Vec<Step>,
    cost: Charge,
    visit: &mut impl FnMut(&[Step], Charge),
) {
    if stack.is_finished(query) {
        visit(taken, cost);
    }
    if steps_left == 0 {
        return;
    }
    for step in Step::all(query) {
        let mut next = stack.clone();
        if let Ok(price) = next.step(query, step) {
            taken.push(step);
            extend(query, &next, steps_left - 1, taken, cost + price, visit);
            taken.pop();
        }
    }
}
