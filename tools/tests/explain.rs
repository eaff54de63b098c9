//! `fanchuki explain`, over the examples, small queries and with names.

mod common;

use std::time::{Duration, Instant};

use common::texts::q;
use common::{example, examples, held_to, proved, run, run_on, Run};
use fanchuki::cheapest::{self, Cheapest};
use fanchuki::explained::Explained;

#[test]
fn every_example_is_explained() {
    examples::are_stored("explain", "txt");
}

fn of(text: &str) -> Run {
    run_on(&["explain", "-"], text.as_bytes())
}

/// One relation, at home at site 0.
fn single(delivery: usize) -> String {
    format!(
        "sites 0 to 1 may join, fixed 2, rate 1\nrelation 0 at site 0\nsize of 0 is 10\n\
         every line open, fixed 1, rate 1\ndelivery to site {delivery}\n"
    )
}

#[test]
fn one_relation() {
    let stays = of(&single(0));
    assert_eq!((stays.code, stays.said.as_str()), (0, ""));
    held_to("explain-one-relation.txt", &stays.text());
    let sent = of(&single(1));
    assert_eq!(sent.code, 0);
    held_to("explain-one-relation-sent.txt", &sent.text());
}

/// Everything is free, so nothing has a share.
#[test]
fn a_cost_of_nothing() {
    let free = of(&q()
        .replace("fixed 2, rate 1", "fixed 0, rate 0")
        .replace("fixed 1, rate 1", "fixed 0, rate 0"));
    assert_eq!(free.code, 0);
    held_to("explain-free.txt", &free.text());
}

fn with_names(relations: [&str; 4], sites: [&str; 3]) -> String {
    let mut loaded = proved::four_tables(relations, sites);
    let Ok(Cheapest::Plan(plan)) = cheapest::find(&mut loaded) else { panic!("no plan") };
    let explained = Explained::find(&mut loaded, plan);
    let explained = explained.expect("an explanation");
    explained.print(&loaded.query, &loaded.names, loaded.subqueries)
}

#[test]
fn names_are_told() {
    let usual = with_names(["customers", "orders", "items", "rebates"], ["north", "south", "east"]);
    assert!(usual.lines().all(|line| line.chars().count() <= 116), "{usual}");
    held_to("explain-four-tables.txt", &usual);
    let other = with_names(["größen", "θ", "Ελλάδα", "ž"], ["łódź", "é", "mitte"]);
    held_to("explain-four-tables-unicode.txt", &other);
    let long = "a_name_that_is_longer_than_its_column";
    held_to("explain-four-tables-long.txt", &with_names([long, "b", long, "d"], [long, "s", "t"]));
}

/// Nobody waits; of several runs the fastest counts, whatever else the machine does.
#[test]
fn the_star_of_nine_takes_under_50_milliseconds() {
    let star = example("star-of-nine.txt");
    let fastest = (0..10).map(|_| {
        let start = Instant::now();
        assert_eq!(run(&["explain", &star]).code, 0);
        start.elapsed()
    });
    let fastest = fastest.min().expect("ten runs");
    assert!(fastest < Duration::from_millis(50), "{fastest:?}");
}
