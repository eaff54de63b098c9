//! A plan as text: every fault with its place, and no text that stops the tool.

mod common;

use common::held_to;
use fanchuki::checked::plan_text;
use fanchuki::listing;
use reference::generate::queries::{self, Extent};
use reference::limits::MOST_STEPS;
use reference::method::Method;
use reference::names::Names;
use reference::query::Query;
use reference::random::Random;
use reference::solve;
use reference::step::{self, Step};

#[test]
fn every_fault_of_the_text_is_told_in_one_run() {
    let some = |name: &str| Some(name.to_string());
    let names = Names {
        sites: vec![some("north"), some("south"), None],
        relations: vec![some("customers"), some("orders")],
    };
    let text = "plan 4 cost 21\nload custmers\n  laod orders\nsend to nroth, now\nsend\nsend to\n\
                load 256\nload relation 3\njoin two\njoin 0 0\nfetch 1\nload parts\n4 x\n\
                plan 4 cost 21 trials 3\nsend to 2\nno route trials 3\nsend site\n+1 0\n";
    let faults = plan_text::parse(text, &names).expect_err("faults");
    let told: Vec<String> = faults.iter().map(|fault| format!("{fault}\n")).collect();
    held_to("check-faults.txt", &told.concat());
}

#[test]
fn long_words_are_told_by_their_front() {
    let long = |letter: &str| letter.repeat(10_000);
    let (a, one) = (long("a"), long("1"));
    for text in [a.clone(), format!("load {a}"), format!("load {one}"), format!("load 0 {a}"), one]
    {
        let faults = plan_text::parse(&text, &Names::default()).expect_err("a fault");
        assert!(faults.len() == 1 && faults[0].reason.len() < 200, "{}", faults[0]);
    }
}

/// Of so many sites and relations, some without one.
fn names(random: &mut Random, sites: usize, relations: usize) -> Names {
    let mut names = |kind: &str, count: usize| {
        let name = |number: usize| random.percent(70).then(|| format!("{kind}{number}"));
        (0..count).map(name).collect()
    };
    Names { sites: names("\u{e9}to", sites), relations: names("load", relations) }
}

#[test]
fn a_listing_reads_back() {
    for case in 0..500 {
        let mut random = Random::for_case(79, case);
        let query = queries::query(&mut random, &Extent::full());
        let names = names(&mut random, query.sites.len(), query.relations.len());
        let Some(plan) = solve::solve(&query, Method::Rules) else {
            continue;
        };
        let listing = listing::listing(&names, &plan.steps, plan.cost.0, 0);
        let read = plan_text::parse(&listing, &names).expect("a plan");
        assert_eq!(read.plan, step::plan_bytes(&plan.steps));
        assert_eq!(read.lines, (2..2 + plan.steps.len()).collect::<Vec<_>>());
    }
}

const PIECES: [&str; 18] = [
    "load",
    "send",
    "join",
    "to",
    "site",
    "plan",
    "cost",
    "no",
    "#",
    ",",
    "\n",
    "\r\n",
    "\t",
    " ",
    "256",
    "99999999999999999999999",
    "\u{e9}to1",
    "-1",
];

/// The text with pieces put in, taken out, doubled or swapped.
fn damaged(random: &mut Random, text: &str) -> String {
    let mut letters: Vec<String> = text.chars().map(String::from).collect();
    for _ in 0..random.between(1, 6) {
        let place = random.below(letters.len());
        match random.below(4) {
            0 => letters.insert(place, random.pick(&PIECES).to_string()),
            1 => letters[place] = random.pick(&PIECES).to_string(),
            2 => letters.insert(place, letters[place].repeat(random.below(60))),
            _ => letters.swap(place, random.below(place + 1)),
        }
    }
    letters.concat()
}

#[test]
fn thousands_of_damaged_texts_are_taken_or_told_with_their_place() {
    let mut met = [0; 2];
    for case in 0..5_000 {
        let mut random = Random::for_case(80, case);
        let query = queries::query(&mut random, &Extent::full());
        let names = names(&mut random, query.sites.len(), query.relations.len());
        let steps = steps_of(&mut random, &query);
        let text = damaged(&mut random, &listing::listing(&names, &steps, 1, 1));
        match plan_text::parse(&text, &names) {
            Ok(read) => {
                met[0] += 1;
                assert!(read.lines.len() <= MOST_STEPS);
                assert_eq!(read.plan.len(), 1 + 2 * read.lines.len());
            }
            Err(faults) => {
                met[1] += 1;
                assert!(!faults.is_empty());
                for fault in faults {
                    let line = text.lines().nth(fault.place.line - 1).expect("the fault's line");
                    assert!(
                        (1..=1 + line.chars().count()).contains(&fault.place.column),
                        "{fault}"
                    );
                    assert!(fault.reason.len() > 10);
                }
            }
        }
    }
    assert!(met.iter().all(|&count| count > 100), "{met:?}");
}

/// Some steps of the query, in any order.
fn steps_of(random: &mut Random, query: &Query) -> Vec<Step> {
    let mut steps: Vec<Step> = Step::all(query).collect();
    random.shuffle(&mut steps);
    steps
}

/// A line of a million letters takes no time that anybody notices, and little room.
#[test]
fn a_long_line() {
    for (line, column) in [("1, ", 7), ("a", 1), ("1", 1), ("load ", 6), ("\u{7f}", 1)] {
        let text = format!("load 0\n{}\n", line.repeat(300_000));
        let faults = plan_text::parse(&text, &Names::default()).expect_err("a fault");
        assert_eq!(faults.len(), 1, "{line}");
        assert_eq!((faults[0].place.line, faults[0].place.column), (2, column), "{line}");
        let reason = &faults[0].reason;
        assert!(reason.len() < 400 && !reason.contains('\u{7f}'), "{line}: {reason}");
    }
}
