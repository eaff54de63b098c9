//! Fixed lists of calls for the places of the rules that are easily misread: state
//! before input, what a refusal leaves standing, wide arguments, every refusal of check
//! with its place; sizes at and beside full parcels; two indexes.

use crate::encode::encode;
use crate::limits::{LONGEST_PLAN, MOST_CELLS, MOST_FIXED, MOST_RATE, MOST_SIZE, MOST_STEPS};
use crate::pinned;
use crate::pinned_indexes;
use crate::planner::Link;
use crate::query::{Line, Query, Relation, Site};
use crate::script::Call;
use crate::stated::Form;
use crate::step::{self, Step};
use crate::units::{Bytes, Charge, Rate};

pub fn lists() -> Vec<Vec<Call>> {
    vec![
        nothing_loaded(),
        refusals_leave_the_query(),
        links(),
        no_route(),
        checks(),
        alone(),
        dearest(),
        parcels(),
        two_indexes(),
    ]
}

/// Enough cells for every query, and an output that every plan fits.
pub const SOLVE: Call = Call::Solve { cells: MOST_CELLS as u32, output: LONGEST_PLAN as u32 };

pub fn load(query: &Query) -> Call {
    load_file(encode(query))
}

/// A load of bytes that need not be a file.
pub fn load_file(file: Vec<u8>) -> Call {
    Call::Load { form: Form::Sizes, file }
}

pub fn link(sender: u64, receiver: u64, open: u64, fixed: u64, rate: u64) -> Call {
    Call::Link(Link { sender, receiver, open, fixed, rate })
}

pub fn solve(cells: u32, output: u32) -> Call {
    Call::Solve { cells, output }
}

pub fn check(plan: &[u8]) -> Call {
    Call::Check { plan: plan.to_vec() }
}

/// Every call before a load, with arguments that are wrong in other ways too.
fn nothing_loaded() -> Vec<Call> {
    vec![
        SOLVE,
        solve(0, 0),
        solve(0, LONGEST_PLAN as u32),
        solve(4_096, 0),
        check(&[]),
        check(&[1, 1, 0]),
        link(0, 0, 2, u64::MAX, u64::MAX),
        load_file(Vec::new()),
        SOLVE,
    ]
}

/// After a refused call, and after a link that changes nothing, the query answers as before;
/// more than can be lent is lent as all.
fn refusals_leave_the_query() -> Vec<Call> {
    let q = pinned::q();
    let file = encode(&q);
    vec![
        load(&q),
        solve(8, 9),
        solve(10, 9),
        load_file(file[..106].to_vec()),
        load_file([file.clone(), vec![0]].concat()),
        solve(9, 9),
        solve(0, 9),
        link(1, 1, 1, 1, 1),
        link(0, 1, 2, 1, 1),
        solve(9, 10),
        solve(9, 8),
        link(0, 1, 1, 1, 1),
        solve(4_096, 9),
        solve(8_192, 4_096),
        solve(u32::MAX, u32::MAX),
        load(&q),
        solve(9, 9),
    ]
}

/// Wide arguments are not cut; 6 comes before 3; a closed line's amounts are judged.
fn links() -> Vec<Call> {
    let wide = 1 << 32;
    let mut calls = vec![load(&pinned::q())];
    for (sender, receiver) in
        [(0, 0), (0, 3), (3, 0), (wide, 1), (1, wide), (256, 1), (u64::MAX, 0), (0, u64::MAX)]
    {
        calls.push(link(sender, receiver, 1, 0, 0));
        calls.push(link(sender, receiver, 2, u64::MAX, 1_001));
    }
    for (open, fixed, rate) in [
        (2, 0, 0),
        (wide, 0, 0),
        (wide + 1, 0, 0),
        (u64::MAX, 0, 0),
        (1, MOST_FIXED + 1, 0),
        (0, MOST_FIXED + 1, 0),
        (1, wide, 0),
        (1, 0, MOST_RATE + 1),
        (0, 0, MOST_RATE + 1),
        (1, 0, wide),
        (1, u64::MAX, u64::MAX),
    ] {
        calls.push(link(1, 0, open, fixed, rate));
    }
    // Each direction is its own line.
    calls.extend([
        SOLVE,
        link(0, 1, 1, 0, 0),
        SOLVE,
        link(1, 0, 1, MOST_FIXED, MOST_RATE),
        SOLVE,
        link(1, 0, 0, 0, 0),
        SOLVE,
        link(1, 0, 1, 0, 0),
        SOLVE,
    ]);
    calls
}

/// With no route no output is too short; opening a line brings a plan back.
fn no_route() -> Vec<Call> {
    vec![
        load(&pinned::q()),
        solve(9, 9),
        link(1, 0, 0, 1, 1),
        solve(4_096, 11),
        link(2, 0, 0, 1, 1),
        solve(8_192, LONGEST_PLAN as u32),
        solve(9, 0),
        check(&[4, 1, 0, 1, 1, 2, 0, 3, 0]),
        link(2, 0, 1, 1, 1),
        solve(9, 11),
    ]
}

/// Every refusal of check on Q, and plans that are allowed without being cheapest.
fn checks() -> Vec<Call> {
    let plans: [&[u8]; 35] = [
        &[4, 1, 0, 1, 1, 2, 0, 3, 0],
        &[4, 1, 1, 2, 0, 1, 0, 3, 0],
        &[5, 1, 0, 2, 1, 1, 1, 3, 0, 2, 0],
        &[6, 1, 0, 2, 2, 1, 1, 2, 2, 3, 0, 2, 0],
        // A send after a send, to another site and home again
        &[5, 1, 1, 2, 2, 2, 0, 1, 0, 3, 0],
        &[6, 1, 0, 2, 1, 2, 0, 1, 1, 2, 0, 3, 0],
        // 7: empty, count 0, cut, longer, more steps than a plan may have
        &[],
        &[0],
        &[1],
        &[1, 1],
        &[1, 1, 0, 1],
        &[2, 1, 0],
        &[255, 1, 0],
        &[MOST_STEPS as u8 + 1; LONGEST_PLAN + 2],
        // 8: kinds, arguments, and before any other fault of the step
        &[1, 0, 0],
        &[1, 4, 0],
        &[1, 255, 255],
        &[1, 1, 2],
        &[2, 1, 0, 1, 255],
        &[1, 2, 3],
        &[1, 3, 1],
        &[3, 1, 0, 1, 1, 3, 1],
        // 9
        &[2, 1, 0, 1, 0],
        &[5, 1, 0, 1, 1, 2, 0, 3, 0, 1, 1],
        // 10: nothing held, to the same site, before and after a send
        &[1, 2, 0],
        &[2, 1, 0, 2, 0],
        &[3, 1, 0, 2, 1, 2, 1],
        // 11: fewer than two held, two sites
        &[1, 3, 0],
        &[2, 1, 0, 3, 0],
        &[3, 1, 0, 1, 1, 3, 0],
        // 12: two results, one relation only, another site
        &[2, 1, 0, 1, 1],
        &[1, 1, 0],
        &[5, 1, 0, 1, 1, 2, 0, 3, 0, 2, 2],
        &[4, 1, 1, 1, 0, 2, 1, 3, 0],
        // 11 before 12, at its own step
        &[3, 1, 1, 1, 0, 3, 0],
    ];
    let mut calls = vec![load(&pinned::q())];
    calls.extend(plans.map(check));
    // The same with a closed line and with a site that may not join.
    calls.push(link(1, 0, 0, 1, 1));
    calls.extend(plans.map(check));
    let mut no_join_at_0 = pinned::q();
    no_join_at_0.sites[0].may_join = false;
    calls.push(load(&no_join_at_0));
    calls.extend(plans.map(check));
    calls
}

/// One relation at one site: no joins, no lines, no sends, trials 0, and one cell.
fn alone() -> Vec<Call> {
    let query = pinned::alone();
    vec![
        load(&query),
        solve(0, 3),
        solve(1, 3),
        solve(1, 2),
        check(&[1, 1, 0]),
        check(&[1, 3, 0]),
        check(&[2, 1, 0, 2, 0]),
        check(&[2, 1, 0, 2, 1]),
        link(0, 0, 1, 0, 0),
        link(0, 1, 1, 0, 0),
        solve(4_096, 4),
    ]
}

/// A chain of nine with every amount at its limit, and a plan of all the steps that a plan can
/// have, which costs all that one can: no read is spared, and the result is sent away and back
/// again until no step is left.
pub fn dearest_plan() -> (Query, Vec<Step>) {
    let site = Site { may_join: true, fixed: Charge(MOST_FIXED), rate: Rate(MOST_RATE) };
    let line = Line { open: true, fixed: Charge(MOST_FIXED), rate: Rate(MOST_RATE) };
    let relations = vec![Relation { home: 0, index: false }; 9];
    let sizes = vec![Bytes(MOST_SIZE); 45];
    let query = Query::new(vec![site; 3], relations, pinned::chain(9), sizes, vec![line; 6], 0);

    let load_and_send = |relation, to| [Step::Load { relation }, Step::Send { to }];
    let mut steps = load_and_send(0, 1).to_vec();
    let mut at = 1;
    for join in 0..8 {
        steps.extend(load_and_send(join + 1, at));
        let next = if join == 7 { 0 } else { 3 - at };
        steps.extend([Step::Join { join }, Step::Send { to: next }]);
        at = next;
    }
    while steps.len() < MOST_STEPS {
        steps.extend([1, 0].map(|to| Step::Send { to }));
    }
    (query, steps)
}

fn dearest() -> Vec<Call> {
    let (query, steps) = dearest_plan();
    let plan = step::plan_bytes(&steps);
    let one_more = step::plan_bytes(&[&steps[..], &[Step::Send { to: 1 }]].concat());
    vec![load(&query), check(&plan), check(&plan[..LONGEST_PLAN - 1]), check(&one_more), SOLVE]
}

/// A send of each size, solved and checked: of a relation, before and after a link that
/// charges otherwise, and of a joined result.
fn parcels() -> Vec<Call> {
    let mut calls = Vec::new();
    for (size, _) in pinned::PARCELS {
        calls.extend([load(&pinned::sent(size)), solve(2, 5), check(&[2, 1, 0, 2, 1])]);
        calls.extend([link(0, 1, 1, 0, 1_000), solve(2, 5), check(&[2, 1, 0, 2, 1])]);
        calls.extend([load(&pinned::joined_and_sent(size)), solve(6, 9)]);
        calls.push(check(&[4, 1, 1, 1, 0, 3, 0, 2, 1]));
    }
    calls
}

/// Each query solved, and its cheapest plan checked; where both relations have one home also
/// the other way round, and joined away from there.
fn two_indexes() -> Vec<Call> {
    let mut calls = Vec::new();
    for worked in pinned_indexes::worked() {
        calls.extend([load(&worked.query), SOLVE, check(&worked.plan)]);
    }
    for worked in pinned_indexes::at_one_home() {
        calls.push(load(&worked.query));
        calls.push(check(&[3, 1, 1, 1, 0, 3, 0]));
        calls.push(check(&[6, 1, 0, 2, 1, 1, 1, 2, 1, 3, 0, 2, 0]));
    }
    calls
}
