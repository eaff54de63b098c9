//! Plans to check: allowed ones, cheapest or not, and ones that are nearly allowed.

use crate::generate::tours::{self, others};
use crate::limits::{LONGEST_PLAN, MOST_STEPS};
use crate::query::Query;
use crate::random::Random;
use crate::rules::Stack;
use crate::sets::{self, Set};
use crate::step::{self, Step};
use crate::tree;

/// A send in a random plan goes on to any other site until it is where it is wanted, but no
/// result is sent more often.
const MOST_SENDS: usize = 12;

/// Some allowed plan, if a few attempts find one.
pub fn allowed(random: &mut Random, query: &Query) -> Option<Vec<Step>> {
    let all = sets::everything(query.relations.len());
    (0..8).find_map(|_| {
        let mut steps = Vec::new();
        deliver(random, query, all, query.delivery, &mut steps)?;
        (steps.len() <= MOST_STEPS).then_some(steps)
    })
}

/// Bytes to check, from those of the given plan to none at all.
pub fn to_check(random: &mut Random, query: &Query, plan: Option<&[Step]>) -> Vec<u8> {
    let near = match plan {
        Some(steps) if random.percent(60) => Some(steps.to_vec()),
        _ => allowed(random, query),
    };
    match (random.below(12), near) {
        (0 | 1, Some(steps)) => step::plan_bytes(&steps),
        (2 | 3, Some(steps)) => step::plan_bytes(&steps_changed(random, query, steps)),
        (4 | 5, Some(steps)) => bytes_changed(random, step::plan_bytes(&steps)),
        (6 | 7, Some(steps)) => step::plan_bytes(&tours::with_tours(random, query, steps)),
        (8 | 9, _) => step::plan_bytes(&wandering(random, query)),
        (10, _) => step::plan_bytes(&random_steps(random, query)),
        (_, _) => random_bytes(random),
    }
}

/// Steps that put the set at the site, made at a random site by a random join.
fn deliver(
    random: &mut Random,
    query: &Query,
    set: Set,
    to: usize,
    steps: &mut Vec<Step>,
) -> Option<()> {
    let from = if sets::count(set) == 1 {
        let relation = sets::lowest(set);
        steps.push(Step::Load { relation });
        query.relations[relation].home
    } else {
        join_somewhere(random, query, set, steps)?
    };
    send_on(random, query, from, to, steps)
}

/// Sends over open lines from one site to the other; the line between them is taken half the
/// time.
fn send_on(
    random: &mut Random,
    query: &Query,
    from: usize,
    to: usize,
    steps: &mut Vec<Step>,
) -> Option<()> {
    let mut at = from;
    for _ in 0..MOST_SENDS {
        if at == to {
            return Some(());
        }
        let open: Vec<usize> =
            others(query, at).filter(|&next| query.line(at, next).open).collect();
        at = match open[..] {
            [] => return None,
            _ if open.contains(&to) && random.percent(50) => to,
            _ => random.pick(&open),
        };
        steps.push(Step::Send { to: at });
    }
    (at == to).then_some(())
}

fn join_somewhere(
    random: &mut Random,
    query: &Query,
    set: Set,
    steps: &mut Vec<Step>,
) -> Option<usize> {
    let sites: Vec<usize> = (0..query.sites.len()).filter(|&at| query.sites[at].may_join).collect();
    let inside = |&join: &usize| query.joins()[join].within(set);
    let joins: Vec<usize> = (0..query.joins().len()).filter(inside).collect();
    if sites.is_empty() {
        return None;
    }
    let (at, join) = (random.pick(&sites), random.pick(&joins));
    let (first, other) = tree::parts(query.joins(), set, join);
    let parts = if random.percent(50) { [first, other] } else { [other, first] };
    for part in parts {
        deliver(random, query, part, at, steps)?;
    }
    steps.push(Step::Join { join });
    Some(at)
}

/// Mostly steps that the rules allow, broken off anywhere.
fn wandering(random: &mut Random, query: &Query) -> Vec<Step> {
    let all: Vec<Step> = Step::all(query).collect();
    let length = random.between(1, MOST_STEPS as u64) as usize;
    let mut stack = Stack::default();
    let mut steps = Vec::new();
    while steps.len() < length {
        let step = random.pick(&all);
        let possible = stack.step(query, step).is_ok();
        if possible || random.percent(1) {
            steps.push(step);
        } else if random.percent(2) {
            break;
        }
    }
    steps
}

fn random_steps(random: &mut Random, query: &Query) -> Vec<Step> {
    let all: Vec<Step> = Step::all(query).collect();
    let length = random.between(1, MOST_STEPS as u64);
    (0..length).map(|_| random.pick(&all)).collect()
}

/// Steps swapped, dropped, doubled, replaced or added.
fn steps_changed(random: &mut Random, query: &Query, mut steps: Vec<Step>) -> Vec<Step> {
    let all: Vec<Step> = Step::all(query).collect();
    for _ in 0..random.between(1, 2) {
        if steps.is_empty() {
            break;
        }
        let place = random.below(steps.len());
        match random.below(6) {
            0 => steps.swap(place, random.below(place + 1)),
            1 => {
                steps.remove(place);
            }
            2 => steps.insert(place, steps[place]),
            3 => steps[place] = random.pick(&all),
            4 => steps.insert(place, random.pick(&all)),
            _ => steps.push(random.pick(&all)),
        }
    }
    steps
}

/// One byte changed, the plan cut or longer, or another count.
fn bytes_changed(random: &mut Random, mut plan: Vec<u8>) -> Vec<u8> {
    let place = random.below(plan.len());
    let most = MOST_STEPS as u8;
    match random.below(6) {
        0 => plan[place] = random.number() as u8,
        1 => plan[place] = plan[place].wrapping_add(random.pick(&[1, 255])),
        2 => plan[0] = random.pick(&[0, most, most + 1, 255]),
        3 => plan.truncate(place),
        4 => plan.push(random.number() as u8),
        _ => {
            let count = random.pick(&[most, most + 1, most + 2, 255]);
            plan[0] = count;
            plan.resize(1 + 2 * usize::from(count), 1);
        }
    }
    plan
}

/// Random bytes, half the time with a count that fits and kinds that may be known.
fn random_bytes(random: &mut Random) -> Vec<u8> {
    let length = random.below(LONGEST_PLAN + 10);
    let mut plan: Vec<u8> = (0..length).map(|_| random.number() as u8).collect();
    if random.percent(50) && length > 0 {
        plan.truncate(1 + 2 * ((length - 1) / 2));
        plan[0] = (plan.len() / 2) as u8;
        for byte in &mut plan[1..] {
            *byte %= 5;
        }
    }
    plan
}
