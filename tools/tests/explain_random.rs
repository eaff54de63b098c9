//! Explanations of thousands of random queries, held to the rules and to the proved answers.

mod common;

use common::proved::{put, random, running};
use fanchuki::cheapest::{self, Cheapest, Plan};
use fanchuki::explained::{no_route, steps};
use fanchuki::priced::{Price, Priced};
use reference::names::Names;
use reference::query::Query;
use reference::rules::Stack;
use reference::solve;
use reference::stated::Form;
use reference::units::Charge;

const SEED: u64 = 71;
const QUERIES: u64 = 6_000;

/// What was seen, so that a test that sees little fails.
#[derive(Debug, Default)]
struct Seen {
    routes: u64,
    no_routes: u64,
    from_rows: u64,
    sends: u64,
    sent_on: u64,
    joins: u64,
    spared: u64,
    two_indexes: u64,
}

impl Seen {
    fn add(&mut self, plan: &Plan, form: Form) {
        self.routes += 1;
        self.from_rows += u64::from(form == Form::Rows);
        let are_sends = |two: &&[Priced]| two.iter().all(|it| matches!(it.price, Price::Send(_)));
        self.sent_on += plan.steps.windows(2).filter(are_sends).count() as u64;
        for priced in &plan.steps {
            match priced.price {
                Price::Load => {}
                Price::Send(_) => self.sends += 1,
                Price::Join(joining) => {
                    self.joins += 1;
                    self.spared += u64::from(joining.spared().is_some());
                    let both = joining.operands.iter().all(|operand| operand.qualifies);
                    self.two_indexes += u64::from(both);
                }
            }
        }
    }
}

#[test]
fn the_sum_is_the_proved_cost() {
    let mut loaded = running();
    let mut seen = Seen::default();
    for case in 0..QUERIES {
        let stated = random(SEED, case);
        let form = stated.form();
        put(&mut loaded, stated);
        match cheapest::find(&mut loaded) {
            Ok(Cheapest::NoRoute { trials }) => {
                assert_eq!(trials, solve::trials(&loaded.query), "case {case}");
                assert_ne!(reasons(&loaded.query), [""; 0], "case {case}");
                seen.no_routes += 1;
            }
            Ok(Cheapest::Plan(plan)) => {
                by_the_rules(&loaded.query, &plan);
                assert_eq!(reasons(&loaded.query), [""; 0], "case {case}");
                as_printed(&plan);
                seen.add(&plan, form);
            }
            Err(failure) => panic!("case {case}: {}", failure.reason()),
        }
    }
    assert!(seen.routes > 4_000 && seen.from_rows > 1_000, "{seen:?}");
    assert!(seen.no_routes > 500 && seen.joins > 15_000, "{seen:?}");
    assert!(seen.sends > 10_000 && seen.sent_on > 2_000, "{seen:?}");
    assert!(seen.spared > 5_000 && seen.two_indexes > 1_000, "{seen:?}");
}

/// Why there is no route: always told, and never where there is one.
fn reasons(query: &Query) -> Vec<String> {
    no_route::reasons(query, &Names::default())
}

/// Each step costs what the rules say, and the last sum is the cost.
fn by_the_rules(query: &Query, plan: &Plan) {
    let mut stack = Stack::default();
    let mut sum = Charge(0);
    for priced in &plan.steps {
        let charge = stack.step(query, priced.step).expect("an allowed step");
        sum = sum + charge;
        assert_eq!((priced.price.charge(), priced.sum), (charge, sum));
        assert_eq!(Some(&priced.held), stack.held.last());
        assert_eq!(priced.size, query.size(priced.held.set));
    }
    assert!(stack.is_finished(query));
    assert_eq!(sum, plan.cost);
}

/// The table's own figures, worked out from its text.
fn as_printed(plan: &Plan) {
    let text = steps::table(&Names::default(), &plan.steps);
    let mut sum = 0;
    let mut rows = 0;
    for line in text.lines().skip(1).filter(|line| line.contains(" at ") || line.contains(" to ")) {
        let cells: Vec<&str> =
            line.split("  ").map(str::trim).filter(|cell| !cell.is_empty()).collect();
        let [.., price, charge, so_far] = cells[..] else { panic!("{text}") };
        let worked_out = if price.contains('×') { worth(price) } else { 0 };
        sum += worked_out;
        assert_eq!((charge, so_far), (&*worked_out.to_string(), &*sum.to_string()), "{text}");
        rows += 1;
    }
    assert_eq!((rows, sum), (plan.steps.len(), plan.cost.0), "{text}");
}

/// Of `fixed + rate × parcels` and of `fixed + rate × (reads .., result ..)`.
fn worth(price: &str) -> u64 {
    let numbers: Vec<u64> = price
        .split(|character: char| !character.is_ascii_digit())
        .filter_map(|digits| digits.parse().ok())
        .collect();
    let [fixed, rate, parts @ ..] = &numbers[..] else { panic!("{price}") };
    fixed + rate * parts.iter().sum::<u64>()
}
