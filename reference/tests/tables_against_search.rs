//! The model's tables against the exhaustive search, and the search against every
//! single plan.

use reference::check;
use reference::exhaustive;
use reference::generate::queries::{self, Extent};
use reference::hex::hex;
use reference::method::Method;
use reference::pinned;
use reference::query::Query;
use reference::random::Random;
use reference::tree::Join;
use reference::units::Charge;
use reference::{encode, solve, step};

/// Whether there is a plan, on which tables and search agree.
fn agree(query: &Query) -> bool {
    let searched = exhaustive::cheapest(query).unwrap();
    let plan = solve::solve(query, Method::Rules);
    let shown = || hex(&encode::encode(query));
    assert_eq!(plan.as_ref().map(|plan| plan.cost), searched, "query {}", shown());
    if let Some(plan) = plan {
        let checked = check::check(query, &step::plan_bytes(&plan.steps));
        assert_eq!(checked, Ok(plan.cost), "query {}", shown());
    }
    searched.is_some()
}

fn agree_on_many(seed: u64, count: u64, extent: Extent) {
    let query = |case| queries::query(&mut Random::for_case(seed, case), &extent);
    let planned = (0..count).filter(|&case| agree(&query(case))).count() as u64;
    assert!(count / 2 < planned && planned < count, "{planned} of {count} have a plan");
}

#[test]
fn up_to_four_relations_at_three_sites() {
    agree_on_many(11, 3_000, Extent::small());
}

#[test]
fn up_to_three_relations_at_eight_sites() {
    agree_on_many(16, 600, Extent::wide());
}

#[test]
fn four_relations_at_three_sites() {
    agree_on_many(12, 150, Extent { relations: 4..=4, sites: 3..=3 });
}

#[test]
fn five_relations() {
    agree_on_many(13, 25, Extent { relations: 5..=5, sites: 1..=3 });
}

/// Up to as many steps as a plan has in which each result is sent to every other site.
#[test]
fn the_search_finds_the_cheapest_of_every_single_plan() {
    let extents = [(1..=2, 1..=3), (3..=3, 1..=2)];
    let mut plans = 0;
    for case in 0..300 {
        let (relations, sites) = extents[case as usize % 2].clone();
        let extent = Extent { relations, sites };
        let query = queries::query(&mut Random::for_case(14, case), &extent);
        let results = 2 * query.relations.len() - 1;
        let mut least = None;
        exhaustive::every_plan(&query, results * query.sites.len(), &mut |steps, cost| {
            assert_eq!(check::check(&query, &step::plan_bytes(steps)), Ok(cost));
            least = Some(least.map_or(cost, |least: Charge| least.min(cost)));
            plans += 1;
        });
        assert_eq!(exhaustive::cheapest(&query), Ok(least));
    }
    assert!(plans > 1_000, "{plans}");
}

#[test]
fn the_search_refuses_what_it_cannot_keep() {
    let refused =
        |joins: Vec<Join>, sites| exhaustive::cheapest(&pinned::uniform(joins, sites)).is_err();
    assert!(refused(pinned::star(9), 8));
    assert!(refused(pinned::chain(9), 2));
    assert!(refused(pinned::chain(6), 4));
    assert!(refused(pinned::chain(5), 8));
    assert!(!refused(pinned::star(4), 8));
}

/// One relation at two sites: nothing held, or it at home, bare or sent, or at the other site.
/// Two relations at one site: nothing, either, both in either order, or joined. At two sites
/// each relation has three forms, and the two joined have four.
#[test]
fn the_stacks_of_the_smallest_queries() {
    assert_eq!(exhaustive::stacks(&pinned::uniform(pinned::chain(1), 2)), 1 + 3);
    assert_eq!(exhaustive::stacks(&pinned::uniform(pinned::chain(2), 1)), 1 + 2 + 2 + 1);
    assert_eq!(exhaustive::stacks(&pinned::uniform(pinned::chain(2), 2)), 1 + 6 + 2 * 9 + 4);
    let five = exhaustive::stacks(&pinned::uniform(pinned::chain(5), 7));
    assert!(five <= exhaustive::MOST_STACKS, "{five}");
}
