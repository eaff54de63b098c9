//! `fanchuki plan`, over the examples and by names.

mod common;

use common::texts::q;
use common::{example, examples, run, run_on};

#[test]
fn every_example_has_its_listing() {
    examples::are_stored("plan", "txt");
}

/// A text with names plans as the same one with numbers does, by the names.
#[test]
fn names_are_listed() {
    let by_numbers = run(&["plan", &example("q.txt")]);
    let text = q().replace("sites 0 to 2", "sites a b c").replace("relation 0", "relation r");
    let by_names = run_on(&["plan", "-"], text.as_bytes());
    assert_eq!((by_names.code, by_names.said.as_str()), (0, ""));
    let expected = by_numbers.text().replace("load 0", "load r").replace("send 0", "send a");
    assert_eq!(by_names.text(), expected);
}
