//! Routes: the figures worked out by hand, in solve, in check and by the search; random queries
//! in whose cheapest plan results take routes of many sends; and checks that take sends otherwise.

mod common;

use std::collections::BTreeMap;

use common::{hold, WithCheck};
use reference::answers;
use reference::check::check;
use reference::compare::calls;
use reference::compare::program::{Answering, Feed};
use reference::encode::encode;
use reference::exhaustive;
use reference::generate;
use reference::generate::queries::{self, Extent};
use reference::hex::hex;
use reference::limits::{LONGEST_PLAN, MOST_STEPS};
use reference::method::Method;
use reference::query::Query;
use reference::random::Random;
use reference::refusal::Refusal;
use reference::routes;
use reference::rules::{Origin, Stack};
use reference::sets;
use reference::solve::{self, Plan};
use reference::step::{self, Step};
use reference::units::Charge;
use reference::{pinned, pinned_route_calls, pinned_routes, pinned_solves};

#[test]
fn the_figures_worked_out_by_hand() {
    pinned_routes::worked().iter().for_each(hold);
}

/// By its size a result takes the line or the way by site 1.
#[test]
fn a_route_is_that_of_the_size() {
    for worked in pinned_routes::by_size() {
        let route = routes::best(&worked.query, sets::single(0), 0, 2).expect(worked.what);
        let sends = route.stops().map(|to| Step::Send { to });
        let steps: Vec<Step> = [Step::Load { relation: 0 }].into_iter().chain(sends).collect();
        assert_eq!((route.cost.0, step::plan_bytes(&steps)), (worked.cost, worked.plan));
        assert_eq!(route.sends, steps.len() - 1);
    }
}

#[test]
fn only_homes_is_told_by_a_site_that_joins_for_nothing() {
    let worked = pinned_routes::joined_elsewhere();
    let plan = solve::solve(&worked.query, Method::OnlyHomes).unwrap();
    assert_eq!((plan.cost, worked.cost), (Charge(21), 7));
    let (row_5, cost) = pinned::rows().swap_remove(4);
    let plan = solve::solve(&row_5, Method::OnlyHomes);
    assert_eq!(plan.map(|plan| plan.cost.0), cost);
}

#[test]
fn a_relation_that_was_sent_has_lost_its_index() {
    let lines = answers::lines(&pinned_route_calls::home_again());
    assert!(lines[1].starts_with("solved 9 7 3 03010001010300"), "{}", lines[1]);
    assert_eq!(lines[3..], ["check 9", "check 109", "check 109", "check 109"]);
}

/// A send of 8 bytes takes 8. After an even number of sends the relation is at site 0.
#[test]
fn chains_of_sends() {
    let lines = answers::lines(&pinned_route_calls::chains_of_sends());
    let (chains, standing) = lines[1..].split_at(MOST_STEPS);
    let most_sends = MOST_STEPS - 1;
    for (sends, line) in (1..=most_sends).zip(chains) {
        let expected = match sends % 2 {
            0 => format!("refused 12 {}", sends + 1),
            _ => format!("check {}", 8 * sends),
        };
        assert_eq!(*line, expected);
    }
    assert_eq!(chains[most_sends], "refused 7");
    for (place, line) in (2..).zip(standing) {
        assert_eq!(*line, format!("refused 10 {place}"));
    }
    assert_eq!(standing.len(), MOST_STEPS - 2);
}

#[test]
fn the_longest_plan_is_as_long_as_a_plan_can_be() {
    let query = pinned_solves::longest_plan();
    let plan = solve::solve(&query, Method::Rules).unwrap();
    assert_eq!((plan.steps.len(), plan.cost), (MOST_STEPS, Charge(109_213)));
    let bytes = step::plan_bytes(&plan.steps);
    assert_eq!((bytes.len(), check(&query, &bytes)), (LONGEST_PLAN, Ok(plan.cost)));
}

/// The planners that take other routes than the rules.
fn wrong() -> impl Iterator<Item = Method> {
    Method::ROUTED_OTHERWISE.into_iter().chain(Method::OTHERWISE_SENT)
}

#[test]
fn a_figure_tells_each_other_routing() {
    for method in wrong() {
        let told = pinned_routes::worked().into_iter().any(|worked| {
            let plan = solve::solve(&worked.query, method);
            plan.map(|plan| step::plan_bytes(&plan.steps)) != Some(worked.plan)
        });
        assert!(told, "{}", method.name());
    }
}

fn random_query(seed: u64, case: u64, extent: &Extent) -> Query {
    queries::query(&mut Random::for_case(seed, case), extent)
}

#[test]
fn each_other_routing_shows_in_random_queries() {
    let solved: Vec<(Query, Option<Plan>)> = (0..2_000)
        .map(|case| random_query(17, case, &Extent::full()))
        .map(|query| (query.clone(), solve::solve(&query, Method::Rules)))
        .collect();
    for method in wrong() {
        let differs = |(query, plan): &&(Query, Option<Plan>)| {
            let other = solve::solve(query, method);
            match method.costs_the_same() {
                true => other != *plan,
                false => other.map(|plan| plan.cost) != plan.as_ref().map(|plan| plan.cost),
            }
        };
        let told = solved.iter().filter(differs).count();
        println!("{}: {told} of {}", method.name(), solved.len());
        assert!(told > 4, "{}", method.name());
    }
}

/// How many sends each result of the plan takes, the whole and those that take none too.
fn sends_of_each(steps: &[Step]) -> Vec<usize> {
    let is_send = |step: &Step| matches!(step, Step::Send { .. });
    let results = steps.split(|step| !is_send(step)).skip(1);
    results.map(<[Step]>::len).collect()
}

/// The generator reaches routes of every number of sends, and plans of nearly all steps.
#[test]
fn routes_of_many_sends_are_often_best() {
    let mut routes = BTreeMap::new();
    let mut lengths = BTreeMap::new();
    for case in 0..4_000 {
        let Some(plan) = solve::solve(&random_query(18, case, &Extent::full()), Method::Rules)
        else {
            continue;
        };
        for sends in sends_of_each(&plan.steps) {
            *routes.entry(sends).or_insert(0) += 1;
        }
        *lengths.entry(plan.steps.len()).or_insert(0) += 1;
    }
    println!("routes by their sends {routes:?}");
    println!("plans by their steps {lengths:?}");
    assert!((2..=7).all(|sends| routes[&sends] > 50));
    assert!(lengths.range(100..).map(|(_, count)| count).sum::<i32>() > 30);
    assert!(lengths.contains_key(&MOST_STEPS));
    assert_eq!(lengths.range(MOST_STEPS + 1..).next(), None);
}

#[test]
fn tables_and_search_agree_where_routes_are_long() {
    let mut held = 0;
    for case in 0..6_000 {
        let query = random_query(19, case, &Extent { relations: 1..=2, sites: 4..=8 });
        let Some(plan) = solve::solve(&query, Method::Rules) else {
            continue;
        };
        if sends_of_each(&plan.steps).into_iter().max() < Some(3) {
            continue;
        }
        let shown = || hex(&encode(&query));
        assert_eq!(exhaustive::cheapest(&query), Ok(Some(plan.cost)), "query {}", shown());
        let checked = check(&query, &step::plan_bytes(&plan.steps));
        assert_eq!(checked, Ok(plan.cost), "query {}", shown());
        held += 1;
    }
    println!("{held} held to the search");
    assert!(held > 500, "{held}");
}

/// Checks that take sends otherwise than the rules.
const WRONG_CHECKS: [(&str, fn(&Query, &[u8]) -> Result<Charge, Refusal>); 5] = [
    ("a relation that is home again qualifies", |query, plan| {
        check(query, plan).map(|_| cost_home_again(query, plan))
    }),
    ("a send after a send refused", |query, plan| {
        let right = check(query, plan)?;
        let kinds: Vec<u8> = plan.iter().skip(1).step_by(2).copied().collect();
        match kinds.windows(2).position(|pair| pair == [2, 2]) {
            Some(place) => Err(Refusal::SendNotAllowed { step: place + 1 }),
            None => Ok(right),
        }
    }),
    ("a send to where it stands after a send accepted", |query, plan| match check(query, plan) {
        Err(Refusal::SendNotAllowed { step }) if step > 0 => {
            let at = 1 + 2 * step;
            match plan[at - 2..at] == plan[at..at + 2] {
                true => Err(Refusal::WrongEnd { count: usize::from(plan[0]) }),
                false => Err(Refusal::SendNotAllowed { step }),
            }
        }
        right => right,
    }),
    ("a step more than a plan may have", |query, plan| match plan.len() {
        length if length == LONGEST_PLAN + 2 => Err(Refusal::WrongEnd { count: MOST_STEPS + 1 }),
        _ => check(query, plan),
    }),
    ("a step fewer than a plan may have", |query, plan| match plan.len() {
        LONGEST_PLAN => Err(Refusal::PlanLength),
        _ => check(query, plan),
    }),
];

/// What the plan would cost.
fn cost_home_again(query: &Query, plan: &[u8]) -> Charge {
    let step = |bytes: &[u8]| Step::from_bytes(query, bytes[0], bytes[1]);
    let mut stack = Stack::default();
    let mut cost = Charge(0);
    for step in plan[1..].chunks_exact(2).filter_map(step) {
        for held in &mut stack.held {
            let home = query.relations[sets::lowest(held.set)].home;
            if sets::count(held.set) == 1 && held.site == home {
                held.origin = Origin::Bare;
            }
        }
        cost = cost + stack.step(query, step).expect("the plan is allowed");
    }
    cost
}

#[test]
fn every_wrong_check_is_found() {
    for (what, wrong) in WRONG_CHECKS {
        let compared = calls::compare(&WithCheck(wrong), calls::DEFAULT_SEED, 0);
        let Err(mismatch) = compared.unwrap() else { panic!("{what} is not found") };
        assert!(mismatch.calls.len() <= 2, "{what}: {mismatch}");
    }
}

/// Random lists alone find them too.
#[test]
fn random_lists_find_every_wrong_check() {
    for (what, wrong) in WRONG_CHECKS {
        let list = |case| generate::calls::calls(&mut Random::for_case(20, case), 400);
        let mut lists = (0..60).map(list);
        let found = lists.any(|calls| {
            let script: Vec<u8> = calls.iter().flat_map(|call| call.record()).collect();
            let printed = WithCheck(wrong).run(&script, Feed::Whole).unwrap();
            !printed.lines().eq(answers::lines(&calls))
        });
        assert!(found, "{what}");
    }
}
