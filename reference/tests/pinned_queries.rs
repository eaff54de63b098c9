//! The pinned rows of the rules and the vectors from the papers.

use reference::generate::queries::{self, Extent};
use reference::limits::{DEAREST_PLAN, LONGEST_FILE, MOST_STEPS};
use reference::method::Method;
use reference::pinned;
use reference::pinned_calls;
use reference::query::{Line, Query};
use reference::random::Random;
use reference::stated::Form;
use reference::step::Step;
use reference::units::{Bytes, Charge, Parcels, Rate};
use reference::{check, decode, encode, exhaustive, listing, prices, solve, step};

fn cost(query: &Query, method: Method) -> Option<u64> {
    solve::solve(query, method).map(|plan| plan.cost.0)
}

fn list(query: &Query) -> String {
    listing::listing(&encode::encode(query), Method::Rules)
}

#[test]
fn q_has_107_bytes_and_its_listing() {
    let file = encode::encode(&pinned::q());
    assert_eq!(file.len(), 107);
    assert_eq!(decode::decode(&file, Form::Sizes), Ok(pinned::q().into()));
    assert_eq!(list(&pinned::q()), "plan 4 cost 21 trials 3\nload 0\nload 1\nsend 0\njoin 0\n");
}

#[test]
fn rows_1_to_9() {
    let rows = pinned::rows();
    assert_eq!(rows.len(), 9);
    for (row, (query, expected)) in rows.iter().enumerate() {
        assert_eq!(cost(query, Method::Rules), *expected, "row {}", row + 1);
        let searched = exhaustive::cheapest(query).unwrap();
        assert_eq!(searched.map(|cost| cost.0), *expected, "row {}", row + 1);
    }
}

#[test]
fn what_the_rows_print() {
    let printed: Vec<String> = pinned::rows().iter().map(|(query, _)| list(query)).collect();
    assert_eq!(printed[5], "no route trials 3\n");
    assert_eq!(printed[6], "plan 4 cost 19 trials 3\nload 0\nload 1\nsend 0\njoin 0\n");
    assert_eq!(printed[7], "plan 1 cost 0 trials 0\nload 0\n");
    assert_eq!(printed[8], "plan 2 cost 3 trials 0\nload 0\nsend 1\n");
}

#[test]
fn rows_10_and_11() {
    assert_eq!(pinned::uniform(pinned::chain(9), 8).subqueries().len(), 45);
    let star = pinned::uniform(pinned::star(9), 8);
    assert_eq!(star.subqueries().len(), 264);
    assert_eq!(encode::encode(&star).len(), LONGEST_FILE);
}

#[test]
fn the_chain_of_five_of_source_000() {
    let expected = "plan 14 cost 364 trials 120\n\
        load 0\nsend 1\nload 1\njoin 0\nsend 2\nload 2\njoin 1\nsend 3\nload 3\njoin 2\n\
        send 4\nload 4\njoin 3\nsend 5\n";
    assert_eq!(list(&pinned::chain_of_five()), expected);
}

#[test]
fn the_bushy_case() {
    let query = pinned::bushy_four();
    assert_eq!(cost(&query, Method::Rules), Some(28));
    assert_eq!(cost(&query, Method::SingleOperand), Some(40));
    assert_eq!(cost(&query, Method::OnlyHomes), Some(152));
}

#[test]
fn the_carriers_parcels() {
    let line = Line { open: true, fixed: Charge(3), rate: Rate(5) };
    for (size, parcels) in pinned::PARCELS {
        assert_eq!(prices::parcels(Bytes(size)), Parcels(parcels));
        assert_eq!(prices::send(&line, Bytes(size)), Charge(3 + 5 * parcels));
        for (query, joined) in
            [(pinned::sent(size), 0), (pinned::joined_and_sent(size), 2 + 3 * size)]
        {
            let expected = Some(joined + 3 + 5 * parcels);
            assert_eq!(cost(&query, Method::Rules), expected, "{size} bytes");
            let searched = exhaustive::cheapest(&query).unwrap();
            assert_eq!(searched.map(|cost| cost.0), expected, "{size} bytes");
        }
    }
}

/// By the parcel and by the byte the cheapest plans differ.
#[test]
fn a_plan_that_parcels_change() {
    let query = pinned::a_parcel_each();
    let expected = "plan 5 cost 28 trials 3\nload 0\nload 1\nsend 0\njoin 0\nsend 2\n";
    assert_eq!(list(&query), expected);
    assert_eq!(exhaustive::cheapest(&query), Ok(Some(Charge(28))));
    let by_the_byte = solve::solve(&query, Method::LinesByTheByte).unwrap();
    assert_eq!((by_the_byte.steps[1], by_the_byte.cost), (Step::Send { to: 2 }, Charge(40)));
}

#[test]
fn the_counts_of_source_001() {
    let chain = [0, 1, 4, 10, 20, 35, 56, 84, 120];
    let star = [0, 1, 4, 12, 32, 80, 192, 448, 1024];
    for n in 1..=9 {
        for s in [1, 3, 8] {
            let trials = |joins| solve::trials(&pinned::uniform(joins, s));
            assert_eq!(trials(pinned::chain(n)), s as u64 * chain[n - 1]);
            assert_eq!(trials(pinned::star(n)), s as u64 * star[n - 1]);
        }
    }
}

#[test]
fn a_lower_site_wins_a_tie_over_the_asked_one() {
    let expected = "plan 5 cost 0 trials 2\nload 0\nload 1\nsend 0\njoin 0\nsend 1\n";
    assert_eq!(list(&pinned::lower_site_at_a_tie()), expected);
}

#[test]
fn the_dearest_plan() {
    let (query, steps) = pinned_calls::dearest_plan();
    assert_eq!(steps.len(), MOST_STEPS);
    assert_eq!(check::check(&query, &step::plan_bytes(&steps)), Ok(Charge(DEAREST_PLAN)));
}

#[test]
fn every_written_plan_is_allowed_at_its_cost() {
    let mut written = 0;
    for case in 0..2_000 {
        let query = queries::query(&mut Random::for_case(21, case), &Extent::full());
        if let Some(plan) = solve::solve(&query, Method::Rules) {
            assert_eq!(check::check(&query, &step::plan_bytes(&plan.steps)), Ok(plan.cost));
            assert!(plan.cost.0 <= DEAREST_PLAN);
            written += 1;
        }
    }
    assert!(written > 1_000, "{written}");
}
