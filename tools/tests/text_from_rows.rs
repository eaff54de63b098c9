//! The text form of a query with rows and divisors: there and back, and what is refused.

mod common;

use common::texts::{by_rows, taken, told};
use fanchuki::text::parse;
use reference::names::Names;
use reference::pinned_rows;
use reference::stated::Form;
use reference::text::print;

const Q: &str = "sites 0 to 2 may join, fixed 2, rate 1
relation 0 at site 0
relation 1 at site 1
join 0 links 0 and 1
rows of 0 are 10
rows of 1 are 4
divisor of join 0 is 16
every line open, fixed 1, rate 1
delivery to site 0
";

#[test]
fn there_and_back() {
    assert_eq!(print(&pinned_rows::q(), &Names::default()), Q);
    assert_eq!(taken(Q).stated, pinned_rows::q());
}

#[test]
fn rows_by_names() {
    let stated = taken(&by_rows()).stated;
    assert_eq!(stated.form(), Form::Rows);
    assert_eq!(stated.counts.map(|counts| counts.rows), Some(vec![10, 4, 7]));
    let sizes: Vec<u64> = stated.query.sizes.iter().map(|size| size.0).collect();
    assert_eq!(sizes, [10, 4, 3, 7, 4, 2]);
}

/// Q's text with one statement replaced.
fn fault(statement: &str, replacement: &str) -> String {
    assert!(Q.contains(statement), "{statement}");
    told(&parse(&Q.replacen(statement, replacement, 1)).expect_err("a fault"))
}

#[test]
fn faults_tell_their_place() {
    let rows = |found| format!("expected a number of rows from 1 to 1000000, found '{found}'\n");
    let divisor = |found| format!("expected a divisor from 1 to 1000000, found '{found}'\n");
    assert_eq!(fault("are 10", "are 0"), format!("5:15: {}", rows("0")));
    assert_eq!(fault("are 4", "are 1000001"), format!("6:15: {}", rows("1000001")));
    assert_eq!(fault("is 16", "is 0"), format!("7:22: {}", divisor("0")));
    assert_eq!(fault("is 16", "is 1000001"), format!("7:22: {}", divisor("1000001")));
    assert_eq!(fault("are 10", "are ten"), format!("5:15: {}", rows("ten")));
    assert_eq!(fault("are 10", "is 10"), "5:11: expected 'are', found 'is'\n");
    assert_eq!(fault("of 1 are", "of 0 are"), "6:9: rows of 0 are there already, in line 5\n");
    let twice = "divisor of join 0 is 16\ndivisor of join 0 is 16";
    let said = fault("divisor of join 0 is 16", twice);
    assert_eq!(said, "8:17: the divisor of join 0 is there already, in line 7\n");
}

#[test]
fn sizes_beside_rows_tell_their_place() {
    let not_both = "a text has sizes, or rows and divisors, not both";
    let after_rows = |line| format!("{line}:1: {not_both}; rows or divisors begin in line 5\n");
    let after_sizes = format!("6:1: {not_both}; sizes begin in line 5\n");
    assert_eq!(fault("rows of 1 are 4", "size of 1 is 4"), after_rows(6));
    assert_eq!(fault("rows of 0 are 10", "size of 0 is 10"), after_sizes);
    let divisor = "size of 0 is 10\ndivisor of join 0 is 16";
    assert!(fault("rows of 0 are 10", divisor).starts_with(&after_sizes));
    let size = "divisor of join 0 is 16\nsize of 0 is 10";
    assert!(fault("rows of 0 are 10", size).starts_with(&after_rows(6)));
}
