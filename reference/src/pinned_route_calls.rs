//! Fixed lists of calls for routes: queries with routes of several sends, and plans to check in
//! which results are sent on and on.

use crate::limits::MOST_STEPS;
use crate::pinned::{self, Worked};
use crate::pinned_calls::{check, load, SOLVE};
use crate::pinned_routes;
use crate::query::Relation;
use crate::script::Call;
use crate::step::{self, Step};
use crate::units::Bytes;

pub fn lists() -> Vec<Vec<Call>> {
    vec![routes(), home_again(), chains_of_sends()]
}

/// Each query solved, and its cheapest plan checked.
fn routes() -> Vec<Call> {
    let calls = |worked: Worked| [load(&worked.query), SOLVE, check(&worked.plan)];
    pinned_routes::worked().into_iter().flat_map(calls).collect()
}

/// Relation 0 of 100 bytes has an index, lines are free, and a join takes 2 + 1 x (what is read +
/// 3): 9, and 109 once relation 0 was away, if only for a moment or for many.
pub fn home_again() -> Vec<Call> {
    let mut query = pinned::q();
    query.relations = vec![Relation { home: 0, index: true }, Relation { home: 0, index: false }];
    query.sizes = [100, 4, 3].map(Bytes).to_vec();
    query.lines = pinned::equal_lines(3, 0, 0);
    let plan = |sends: &[usize]| {
        let sends = sends.iter().map(|&to| Step::Send { to });
        let loaded = [Step::Load { relation: 0 }].into_iter().chain(sends);
        let joined = [Step::Load { relation: 1 }, Step::Join { join: 0 }];
        check(&step::plan_bytes(&loaded.chain(joined).collect::<Vec<_>>()))
    };
    vec![load(&query), SOLVE, plan(&[]), plan(&[1, 0]), plan(&[1, 2, 0]), plan(&[1, 0].repeat(66))]
}

/// One relation, sent as often as this: from once to as often as a plan has steps, and once more;
/// then to where it stands, at one place after another.
pub fn chains_of_sends() -> Vec<Call> {
    let chain = |sends: usize| {
        let sends = (1..=sends).map(|number| Step::Send { to: number % 2 });
        [Step::Load { relation: 0 }].into_iter().chain(sends).collect::<Vec<_>>()
    };
    let mut calls = vec![load(&pinned::sent(8))];
    calls.extend((1..=MOST_STEPS).map(|sends| check(&step::plan_bytes(&chain(sends)))));
    for place in 1..MOST_STEPS - 1 {
        let mut steps = chain(MOST_STEPS - 2);
        steps.insert(place, steps[place]);
        calls.push(check(&step::plan_bytes(&steps)));
    }
    calls
}
