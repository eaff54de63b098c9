//! Plans in which a result is sent away and comes back.

use crate::limits::MOST_STEPS;
use crate::query::Query;
use crate::random::Random;
use crate::rules::Stack;
use crate::step::Step;

/// The plan with sends away and back again behind one of its steps, so that a relation may be
/// home again before its join: a few, or up to the limit of steps and beyond it. Now and then a
/// send among them is to where the result stands.
pub fn with_tours(random: &mut Random, query: &Query, mut steps: Vec<Step>) -> Vec<Step> {
    let place = random.below(steps.len());
    let Some(at) = top_after(query, &steps[..=place]) else {
        return steps;
    };
    let both_open = |&away: &usize| query.line(at, away).open && query.line(away, at).open;
    let away: Vec<usize> = others(query, at).filter(both_open).collect();
    if away.is_empty() {
        return steps;
    }
    let room = MOST_STEPS.saturating_sub(steps.len()) / 2;
    let tours = random.pick(&[1, 1, 2, room / 2, room, room + 1]);
    let tour = |_| [random.pick(&away), at].map(|to| Step::Send { to });
    let mut sends: Vec<Step> = (0..tours).flat_map(tour).collect();
    if random.percent(10) && !sends.is_empty() {
        let place = random.below(sends.len());
        sends.insert(place, sends[place]);
    }
    steps.splice(place + 1..place + 1, sends);
    steps
}

/// Where the top stands after these steps, if they are allowed.
fn top_after(query: &Query, steps: &[Step]) -> Option<usize> {
    let mut stack = Stack::default();
    for &step in steps {
        stack.step(query, step).ok()?;
    }
    stack.held.last().map(|top| top.site)
}

/// The sites but this one.
pub fn others(query: &Query, site: usize) -> impl Iterator<Item = usize> {
    (0..query.sites.len()).filter(move |&other| other != site)
}
