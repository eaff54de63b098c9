//! What docs/TEXT-FORM.md shows is so.

mod common;

use std::fs;

use common::texts::taken;
use fanchuki::failure::Failure;
use fanchuki::text::{draft, parse, refused};
use reference::pinned;
use reference::pinned_rows;

/// The blocks of the page that are fenced, in order.
fn blocks() -> Vec<String> {
    let page = fs::read_to_string(common::root().join("docs/TEXT-FORM.md")).unwrap();
    page.split("```\n").skip(1).step_by(2).map(str::to_string).collect()
}

#[test]
fn its_texts_are_q() {
    let [q, named, rows, chain, ..] = &blocks()[..] else { panic!("blocks are missing") };
    assert_eq!(taken(q).stated, pinned::q().into());
    assert_eq!(taken(named).stated, pinned::q().into());
    assert_eq!(taken(named).names.site(2), "west");
    let sizes = |line: &&str| !line.starts_with("size of");
    let without_sizes: Vec<&str> = q.lines().filter(sizes).collect();
    assert_eq!(
        taken(&[without_sizes.join("\n"), rows.clone()].join("\n")).stated,
        pinned_rows::q()
    );
    let example = fs::read_to_string(common::example("draft.txt")).unwrap();
    assert_eq!(draft(chain), draft(&example));
    assert!(draft(chain).is_ok());
}

#[test]
fn its_faults_are_told_so() {
    let blocks = blocks();
    let [.., faulty, shown] = &blocks[..] else { panic!("blocks are missing") };
    let faults = parse(faulty).expect_err("faults");
    let Failure::Refused(told) = refused("orders.txt", faulty.as_bytes(), &faults) else {
        panic!("a refusal");
    };
    assert_eq!(format!("{told}\n"), *shown);
}

/// Each statement of the table is one, as it stands.
#[test]
fn its_statements_are_read() {
    let page = fs::read_to_string(common::root().join("docs/TEXT-FORM.md")).unwrap();
    let table = page.split("| statement | says |").nth(1).unwrap();
    let rows = table.lines().skip(2).take_while(|line| line.starts_with('|'));
    let statements: Vec<&str> =
        rows.flat_map(|row| row.split('|').nth(1).unwrap().split('`').skip(1).step_by(2)).collect();
    assert_eq!(statements.len(), 20);
    for statement in statements {
        let numbers =
            [(" F", " 1"), (" R,", " r,"), ("rate R", "rate 1"), (" N", " 1"), (" D", " 1")];
        let mut text = statement.replace(" ..", "");
        for (from, to) in numbers {
            text = text.replace(from, to);
        }
        let text = text.replace("join E", "join 0");
        let faults = parse(&text).expect_err("one statement is no query");
        let of_words =
            |reason: &str| reason.starts_with("expected '") && !reason.ends_with("leaves out");
        let read = faults
            .iter()
            .all(|fault| !of_words(&fault.reason) && !fault.reason.contains("is no statement"));
        assert!(read, "{statement}: {text}: {faults:?}");
    }
}
