//! Faulty texts with all that is told of each, stored in tests/stored/text-faults.txt.

mod common;

use std::fmt::Write;

use common::texts::{by_rows, told, NAMED};
use common::{held_to, run_on};

/// Replacements in a text, each a fault or several.
const BY_SIZES: [(&str, &str); 74] = [
    // Words of the statements.
    ("relation orders", "realtion orders"),
    ("relation orders", "Relation orders"),
    ("relation orders", "table orders"),
    ("every line", "evry lnie"),
    ("delivery", "deliver"),
    ("may join, fixed 2", "may jion, fixed 2"),
    ("may join, fixed 2", "might join, fixed 2"),
    ("may not join", "may nto join"),
    ("may not join, fixed 0, rate 0", "may not, fixed 0, rate 0"),
    ("fixed 2, rate 1", "rate 1, fixed 2"),
    ("fixed 2, rate 1", "fixed, rate 1"),
    ("fixed 2, rate 1", "fixed 2"),
    ("fixed 2, rate 1", "fixed 2, rate"),
    ("fixed 2, rate 1", "fixed 2, rate 1 more"),
    ("open, fixed 1", "ajar, fixed 1"),
    ("open, fixed 1", "opne, fixed 1"),
    ("north, indexed", "north, indexd"),
    ("north, indexed", "north, sorted"),
    ("north, indexed", "north, indexed twice"),
    ("at north", "north"),
    ("at north", "at"),
    ("at north", "at stie north"),
    ("links orders and items", "links orders items"),
    ("join 1 links", "join one links"),
    ("size of items", "size items"),
    ("size of items is 7", "size of items 7"),
    ("size of items is 7", "size of items si 7"),
    ("size of items is 7", "size of items are 7"),
    ("size of items is 7", "size of items is"),
    ("size of items is 7", "size of is 7"),
    // Numbers.
    ("is 7", "is 1000000001"),
    ("is 7", "is 99999999999999999999999999"),
    ("is 7", "is -7"),
    ("is 7", "is +7"),
    ("is 7", "is 7.5"),
    ("is 7", "is 1_000"),
    ("is 7", "is 1,000"),
    ("is 7", "is 1,000,000"),
    ("is 7", "is seven"),
    ("fixed 2, rate 1", "fixed 1000001, rate 1001"),
    // Names.
    ("at north", "at nroth"),
    ("at north", "at site 3"),
    ("at north", "at orders"),
    ("at north", "at east"),
    ("site north", "site nroth"),
    ("site north", "site n@rth"),
    ("site north", "site line"),
    ("site north", "site 1"),
    ("site south", "site north"),
    ("relation items", "relation north"),
    ("links orders and items", "links orders and itmes"),
    ("links orders and items", "links orders and 3"),
    ("delivery to north", "delivery to site nowhere"),
    ("size of orders items is", "size of orders item is"),
    // The whole.
    ("links orders and items", "links orders and orders"),
    ("links orders and items", "links customers and orders"),
    ("join 1 links orders and items\n", ""),
    (
        "join 1 links orders and items\n",
        "join 1 links orders and items\njoin 2 links items and customers\n",
    ),
    ("join 1", "join 0"),
    ("join 1", "join 2"),
    ("size of orders customers is 3\n", ""),
    ("size of orders items is 5", "size of customers items is 5"),
    ("size of orders items is 5", "size of items orders items is 5"),
    ("size of items is 7", "size of items is 7\nsize of items is 8"),
    ("size of items is 7", "rows of items are 7"),
    ("every line open, fixed 1, rate 1\n", ""),
    ("every line open, fixed 1, rate 1", "line north to south open, fixed 1, rate 1"),
    (
        "every line open, fixed 1, rate 1",
        "every line open, fixed 1, rate 1\nevery line closed, fixed 1, rate 1",
    ),
    (
        "every line",
        "line west to north open, fixed 1, rate 1\nline 2 to 0 open, fixed 1, rate 1\nevery line",
    ),
    ("every line open", "line north to north open"),
    ("delivery to north\n", ""),
    ("delivery to north", "delivery to north\ndelivery to 0"),
    ("site west may join, fixed 3, rate 2", "site west"),
    ("relation items at west", "relation items"),
];

const BY_ROWS: [(&str, &str); 9] = [
    ("rows of items are 7\n", ""),
    ("rows of items are 7", "rows of items is 7"),
    ("rows of items are 7", "rows of items are 0"),
    ("rows of items are 7", "rows of itmes are 7"),
    ("rows of items are 7", "rows of orders are 7"),
    ("divisor of join 1 is 20", ""),
    ("divisor of join 1 is 20", "divisor of join 2 is 20"),
    ("divisor of join 1 is 20", "divisor of join 0 is 20"),
    ("divisor of join 1 is 20", "size of items is 20"),
];

const WHOLE: [&str; 14] = [
    "",
    "# nothing\n",
    "site 0\nrelation 0",
    "sites 0 to 8 may join, fixed 2, rate 1",
    "sites a b c d e f g h i may join, fixed 2, rate 1\nrelation 0 at i",
    "site 0 may join, fixed 0, rate 0\nrelations 0 to 9\nrelation x\n",
    "sites 2 to 1\nrelations a to b",
    "sites 0 to 1\nrelations 2 to 1",
    "sites a b mya join, fixed 1, rate 1\nrelations x y at a",
    "site a\nsite a\nsite 2\nsite 3\nrelation 0",
    "site 0\nrelation 0\ndivisor of join 0 is 2",
    "site a may join, fixed 1, rate 1\nrelations p q r s\njoin 0 links p and q\n\
     join 1 links r and s",
    "site a may join, fixed 1, rate 1\nrelation p at a\nrelation q at a\nrelation r at a\n\
     relation s at a\njoin 0 links p and q\njoin 1 links p and r\njoin 2 links p and s\n\
     size of p is 1\n\nsize of q is 1\ndelivery to a",
    "\u{feff}site a may join, fixed 1, rate 1\r\n\trelation p at b\r\nsize of p is x\r\n",
];

fn faulty_texts() -> Vec<(String, String)> {
    let replaced = |text: &str, (from, to): (&str, &str)| {
        assert!(text.contains(from), "{from}");
        (format!("{from:?} -> {to:?}"), text.replacen(from, to, 1))
    };
    let by_sizes = BY_SIZES.into_iter().map(|one| replaced(NAMED, one));
    let by_rows = BY_ROWS.into_iter().map(|one| replaced(&by_rows(), one));
    let whole = WHOLE.into_iter().map(|text| (format!("{text:?}"), text.to_string()));
    by_sizes.chain(by_rows).chain(whole).collect()
}

#[test]
fn every_fault_is_told_as_stored() {
    let mut printed = String::new();
    for (heading, text) in faulty_texts() {
        let faults = fanchuki::text::parse(&text).expect_err(&heading);
        writeln!(printed, "{heading}\n{}", told(&faults)).unwrap();
    }
    held_to("text-faults.txt", &printed);
}

/// Each by the tool: the same faults, their lines and a caret, on standard error, with 1.
#[test]
fn the_tool_tells_the_same() {
    for (heading, text) in faulty_texts() {
        let faults = fanchuki::text::parse(&text).expect_err(&heading);
        let ended = run_on(&["plan", "-"], text.as_bytes());
        assert_eq!((ended.code, ended.printed.len()), (1, 0), "{heading}");
        for fault in &faults {
            let told = format!("standard input:{fault}\n");
            assert!(ended.said.contains(&told), "{heading}: {told}{}", ended.said);
        }
        let carets = ended.said.lines().filter(|line| line.trim() == "^").count();
        let pointed = if text.is_empty() { 0 } else { faults.len() };
        assert_eq!(carets, pointed, "{heading}: {}", ended.said);
        let counted = ended.said.ends_with(&format!("\n{} faults\n", faults.len()));
        assert_eq!(counted, faults.len() > 1, "{heading}: {}", ended.said);
    }
}
