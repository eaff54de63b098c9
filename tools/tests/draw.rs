//! `fanchuki draw`, over the examples and with names.

mod common;

use std::io::Write;
use std::process::{Command, Stdio};

use common::examples::{self, EXAMPLES};
use common::{example, held_to, proved, run, subcommands};
use fanchuki::cheapest::{self, Cheapest};
use fanchuki::drawn;
use reference::query::Line;

#[test]
fn every_example_is_drawn() {
    examples::are_stored("draw", "dot");
}

/// The line from the second site to the first is closed, and the way is by the third.
fn with_names(relations: [&str; 4], sites: [&str; 3]) -> String {
    let mut loaded = proved::four_tables(relations, sites);
    let line = Line { open: false, ..*loaded.query.line(1, 0) };
    loaded.link((1, 0), line).expect("the line is closed");
    let Ok(Cheapest::Plan(plan)) = cheapest::find(&mut loaded) else { panic!("no plan") };
    drawn::dot(&loaded.query, &loaded.names, &plan).expect("a tree")
}

/// With what means something in Graphviz's language.
fn with_odd_names() -> String {
    let relations = ["größen", "a\"b\\n", "<b>&amp;", "x\u{1}]>"];
    with_names(relations, ["it's\\G", "łódź", "\\N\\\\L"])
}

#[test]
fn names_are_drawn() {
    let usual = with_names(["customers", "orders", "items", "rebates"], ["north", "south", "east"]);
    held_to("draw-four-tables.dot", &usual);
    held_to("draw-four-tables-odd-names.dot", &with_odd_names());
}

/// What Graphviz's own program makes of it, without a word; nothing where it is not installed.
fn picture(drawing: &str) -> Option<String> {
    let mut dot = Command::new("dot");
    dot.arg("-Tsvg").stdin(Stdio::piped()).stdout(Stdio::piped()).stderr(Stdio::piped());
    let mut child = dot.spawn().ok()?;
    let mut stdin = child.stdin.take().expect("standard input is piped");
    stdin.write_all(drawing.as_bytes()).expect("it reads");
    drop(stdin);
    let ended = child.wait_with_output().expect("it ends");
    assert!(ended.status.success(), "{drawing}");
    assert_eq!(String::from_utf8_lossy(&ended.stderr), "", "{drawing}");
    Some(String::from_utf8(ended.stdout).expect("UTF-8"))
}

#[test]
fn graphviz_takes_the_drawings() {
    for name in EXAMPLES {
        let drawing = run(&["draw", &examples::text(name)]).text();
        assert!(picture(&drawing).is_none_or(|svg| svg.contains("<svg")));
    }
    let Some(svg) = picture(&with_odd_names()) else { return };
    let relations = [">größen<", ">a&quot;b\\n<", ">&lt;b&gt;&amp;amp;<"];
    let sites = [">at łódź<", ">at \\N\\\\L<", ">by way of \\N\\\\L<"];
    for name in relations.into_iter().chain(sites) {
        assert!(svg.contains(name), "{name}: {svg}");
    }
}

#[test]
fn a_hyphen_is_standard_output() {
    let q = example("q.txt");
    assert_eq!(run(&["draw", &q, "-o", "-"]), run(&["draw", &q]));
}

#[test]
fn the_file_is_of_a_kind_that_is_drawn() {
    for out in ["plan.png", "plan", ".svg"] {
        let ended = run(&["draw", &example("q.txt"), "-o", out]);
        let said = format!("'{out}' ends neither in .dot nor in .svg");
        subcommands::is_told(&ended, 2, &said, out);
    }
}
