//! Drawings of random plans: every send and every join is there once, with its charge, and a
//! route has the sites on its way.

mod common;

use common::proved::{put, random, running};
use fanchuki::cheapest::{self, Cheapest, Plan};
use fanchuki::drawn;
use fanchuki::priced::{Price, Priced};
use reference::names::Names;

const SEED: u64 = 72;

/// The numbers that stand behind the word, as often as it is there.
fn behind(text: &str, word: &str) -> Vec<u64> {
    let number = |rest: &str| {
        let digits: String = rest.chars().take_while(char::is_ascii_digit).collect();
        digits.parse().ok()
    };
    text.split(word).skip(1).filter_map(number).collect()
}

#[test]
fn charges_in_the_drawing_come_to_the_cost() {
    let mut loaded = running();
    let (mut drawn_plans, mut sends, mut sent_on, mut spared) = (0, 0, 0, 0);
    for case in 0..1_500 {
        put(&mut loaded, random(SEED, case));
        let Ok(Cheapest::Plan(plan)) = cheapest::find(&mut loaded) else { continue };
        let text = drawn::dot(&loaded.query, &Names::default(), &plan).expect("a tree");
        let (sent, joined) = (behind(&text, "send: "), behind(&text, "costs "));
        let count =
            |kind: fn(&Price) -> bool| plan.steps.iter().filter(|step| kind(&step.price)).count();
        assert_eq!(sent.len(), count(|price| matches!(price, Price::Send(_))), "{text}");
        assert_eq!(joined.len(), loaded.query.joins().len(), "{text}");
        let sum = sent.iter().chain(&joined).sum::<u64>();
        assert_eq!(behind(&text, "total cost "), [sum], "{text}");
        assert_eq!(sum, plan.cost.0, "{text}");
        let spares = count(|price| matches!(price, Price::Join(it) if it.spared().is_some()));
        assert_eq!(text.matches("read spared").count(), spares, "{text}");
        let mut passed = behind(&text, "by way of site ");
        passed.sort();
        assert_eq!(passed, on_the_way(&plan), "{text}");
        // A box for each relation, join and route, for each spared read, and for the result.
        let routes = sent.len() - passed.len();
        let nodes = loaded.query.relations.len() + joined.len() + routes + spares + 1;
        assert_eq!(text.matches("[label=").count(), nodes, "{text}");
        (drawn_plans, spared) = (drawn_plans + 1, spared + spares);
        (sends, sent_on) = (sends + sent.len(), sent_on + passed.len());
    }
    assert!(drawn_plans > 1_000 && spared > 1_000, "{drawn_plans} {spared}");
    assert!(sends > 2_500 && sent_on > 500, "{sends} {sent_on}");
}

/// The sites at which a send follows a send, in order.
fn on_the_way(plan: &Plan) -> Vec<u64> {
    let between = |two: &[Priced]| match [&two[0].price, &two[1].price] {
        [Price::Send(_), Price::Send(sending)] => Some(sending.from as u64),
        _ => None,
    };
    let mut sites: Vec<u64> = plan.steps.windows(2).filter_map(between).collect();
    sites.sort();
    sites
}
