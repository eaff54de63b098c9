//! The text form of a query: the examples, and what it takes.

mod common;

use std::fs;

use common::texts::{q, taken, NAMED};
use fanchuki::text::decoded;
use reference::encode::encode;
use reference::limits::LONGEST_FILE;
use reference::method::Method;
use reference::names::Names;
use reference::pinned;
use reference::query::Query;
use reference::solve;
use reference::units::Charge;

fn example(name: &str) -> Query {
    let named = taken(&fs::read_to_string(common::examples::text(name)).unwrap());
    assert_eq!(named.names, Names::default());
    named.stated.query
}

#[test]
fn the_examples() {
    assert_eq!(example("q"), pinned::q());
    assert_eq!(example("chain-of-five"), pinned::chain_of_five());
    let two_indexes = solve::solve(&example("two-indexes"), Method::Rules);
    assert_eq!(two_indexes.map(|plan| plan.cost), Some(Charge(9)));
    assert_eq!(example("longest-plan").sites.len(), 8);
    let star = example("star-of-nine");
    assert_eq!(star.subqueries().len(), 264);
    assert_eq!(encode(&star).len(), LONGEST_FILE);
}

#[test]
fn a_line_of_its_own_goes_before_every_line() {
    let closed = taken(&format!("{}line 1 to 0 closed, fixed 1, rate 1\n", q()));
    let mut expected = pinned::q();
    expected.line_mut(1, 0).open = false;
    assert_eq!(closed.stated, expected.into());
}

#[test]
fn marks_line_ends_and_blanks_are_free() {
    let text = format!("\u{feff}{}", NAMED.replace('\n', " # so\r\n").replace(' ', "\t ,"));
    assert_eq!(taken(&text), taken(NAMED));
    assert_eq!(decoded(text.as_bytes(), "t"), Ok(text));
}
