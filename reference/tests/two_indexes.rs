//! Joins of relations with indexes: the figures worked out by hand, in solve, in check and by
//! the search; and random queries in whose cheapest plan both operands of a join qualify.

mod common;

use common::{hold, WithCheck};
use reference::compare::calls;
use reference::generate::queries::{self, Extent};
use reference::hex::hex;
use reference::method::Method;
use reference::pinned_indexes;
use reference::prices::{self, Operand};
use reference::query::Query;
use reference::random::Random;
use reference::rules::{Held, Stack};
use reference::solve::{self, Plan};
use reference::step::{self, Step};
use reference::units::{Bytes, Charge};
use reference::{check, encode, exhaustive};

fn cost(query: &Query, method: Method) -> Option<Charge> {
    solve::solve(query, method).map(|plan| plan.cost)
}

#[test]
fn what_a_join_reads() {
    let reads = |sizes: [u64; 2], qualify: [bool; 2]| {
        let operand =
            |place: usize| Operand { size: Bytes(sizes[place]), qualifies: qualify[place] };
        prices::reads([operand(0), operand(1)]).0
    };
    for (sizes, smaller) in [([10, 4], 4), ([4, 10], 4), ([5, 5], 5), ([0, 7], 0), ([0, 0], 0)] {
        assert_eq!(reads(sizes, [true, true]), smaller);
        assert_eq!(reads(sizes, [true, false]), sizes[1]);
        assert_eq!(reads(sizes, [false, true]), sizes[0]);
        assert_eq!(reads(sizes, [false, false]), sizes[0] + sizes[1]);
    }
}

#[test]
fn the_figures_worked_out_by_hand() {
    pinned_indexes::worked().iter().for_each(hold);
}

/// Which operand lies on top does not matter; after a send neither qualifies.
#[test]
fn plans_that_solve_does_not_write() {
    for worked in pinned_indexes::at_one_home() {
        let turned = check::check(&worked.query, &[3, 1, 1, 1, 0, 3, 0]);
        assert_eq!(turned, Ok(Charge(worked.cost)), "{}", worked.what);
    }
    let query = &pinned_indexes::at_one_home()[0].query;
    let away = check::check(query, &[6, 1, 0, 2, 1, 1, 1, 2, 1, 3, 0, 2, 0]);
    assert_eq!(away, Ok(Charge(3 + 2 + (2 + 10 + 4 + 3) + 2)));
}

#[test]
fn a_figure_tells_each_other_reading() {
    for method in Method::READ_OTHERWISE {
        let told = pinned_indexes::worked()
            .iter()
            .any(|worked| cost(&worked.query, method) != Some(Charge(worked.cost)));
        assert!(told, "{}", method.name());
    }
}

/// The operands of each join in the plan at which both qualify.
fn both_qualify(query: &Query, steps: &[Step]) -> Vec<[Held; 2]> {
    let mut stack = Stack::default();
    let mut found = Vec::new();
    for &step in steps {
        if let (Step::Join { .. }, &[.., below, top]) = (step, &stack.held[..]) {
            if below.qualifies(query) && top.qualifies(query) {
                found.push([below, top]);
            }
        }
        stack.step(query, step).expect("the plan is allowed");
    }
    found
}

/// Random queries in whose cheapest plan both operands of a join qualify, with the plan.
fn random_queries(seed: u64, cases: u64) -> impl Iterator<Item = (Query, Plan)> {
    let solved = move |case| {
        let query = queries::query(&mut Random::for_case(seed, case), &Extent::small());
        let plan = solve::solve(&query, Method::Rules)?;
        (!both_qualify(&query, &plan.steps).is_empty()).then_some((query, plan))
    };
    (0..cases).filter_map(solved)
}

/// The generator reaches all that the rules say of two that qualify: different sizes, equal ones
/// and 0 bytes.
#[test]
fn both_qualify_often() {
    let (mut all, mut unequal, mut equal, mut nothing) = (0, 0, 0, 0);
    for (query, plan) in random_queries(11, 6_000) {
        let operands = both_qualify(&query, &plan.steps).into_iter();
        let sizes = operands.map(|both| both.map(|held| query.size(held.set)));
        all += 1;
        unequal += u32::from(sizes.clone().any(|[one, other]| one != other));
        equal += u32::from(sizes.clone().any(|[one, other]| one == other));
        nothing += u32::from(sizes.clone().any(|both| both.contains(&Bytes(0))));
    }
    println!("{all} of 6,000: {unequal} unequal, {equal} equal, {nothing} with 0 bytes");
    assert!(all > 1_000 && unequal > 500 && equal > 300 && nothing > 300);
}

#[test]
fn each_other_reading_shows_in_random_queries() {
    for method in Method::READ_OTHERWISE {
        let query = |case| queries::query(&mut Random::for_case(11, case), &Extent::small());
        let differs = |query: &Query| cost(query, method) != cost(query, Method::Rules);
        let told = (0..6_000).map(query).filter(differs).count();
        println!("{}: {told} of 6,000", method.name());
        assert!(told > 20, "{}", method.name());
    }
}

#[test]
fn tables_and_search_agree_where_both_qualify() {
    let mut held = 0;
    for (query, plan) in random_queries(15, 20_000) {
        let shown = || hex(&encode::encode(&query));
        assert_eq!(exhaustive::cheapest(&query), Ok(Some(plan.cost)), "query {}", shown());
        let checked = check::check(&query, &step::plan_bytes(&plan.steps));
        assert_eq!(checked, Ok(plan.cost), "query {}", shown());
        held += 1;
    }
    println!("{held} held to the search");
    assert!(held > 3_000, "{held}");
}

/// What an allowed plan costs where both reads of two that qualify are spared.
fn cost_both_spared(query: &Query, plan: &[u8]) -> Charge {
    let step = |bytes: &[u8]| Step::from_bytes(query, bytes[0], bytes[1]);
    let steps: Vec<Step> = plan[1..].chunks_exact(2).filter_map(step).collect();
    let read = |[below, top]: [Held; 2]| {
        query.sites[top.site].rate * query.size(below.set).min(query.size(top.set))
    };
    let reads: Charge = both_qualify(query, &steps).into_iter().map(read).sum();
    Charge(check::check(query, plan).unwrap().0 - reads.0)
}

#[test]
fn a_check_that_spares_both_is_found() {
    let spares_both =
        WithCheck(|query, plan| check::check(query, plan).map(|_| cost_both_spared(query, plan)));
    let compared = calls::compare(&spares_both, calls::DEFAULT_SEED, calls::DEFAULT_LISTS);
    let Err(mismatch) = compared.unwrap() else { panic!("not found") };
    assert!(mismatch.calls.len() <= 2, "{mismatch}");
}
