//! What `--help` tells of every subcommand, and that the manual page tells the same.

mod common;

use std::fs;

use common::subcommands::{is_told, SUBCOMMANDS};
use common::{root, run};

/// The help of a subcommand, however it is asked for.
fn help(name: &str) -> String {
    let helped = run(&[name, "--help"]);
    assert_eq!((helped.code, helped.said.as_str()), (0, ""), "{name}");
    for words in [[name, "-h"], ["help", name], ["--help", name]] {
        assert_eq!(run(&words), helped, "{words:?}");
    }
    assert_eq!(run(&[name, "no-file", "--help"]), helped, "{name}");
    helped.text()
}

#[test]
fn help_names_the_usage_and_the_options() {
    for (name, options) in SUBCOMMANDS {
        let text = help(name);
        let usage = format!("\n\nusage: fanchuki {name} ");
        assert!(text.contains(&usage), "{name}: {text}");
        for option in options {
            assert!(text.contains(option), "{name} has no {option}: {text}");
        }
        assert!(text.contains("standard input") && text.contains("Ends with 0"), "{name}: {text}");
        assert!(text.lines().all(|line| line.chars().count() <= 100), "{name}: {text}");
    }
}

#[test]
fn the_overview_has_every_subcommand() {
    let overview = run(&["--help"]);
    assert_eq!((overview.code, overview.said.as_str()), (0, ""));
    assert_eq!([run(&["-h"]), run(&["help"])], [overview.clone(), overview.clone()]);
    let text = overview.text();
    let rows: Vec<&str> = text.lines().filter_map(|line| line.strip_prefix("  ")).collect();
    assert_eq!(rows.len(), SUBCOMMANDS.len(), "{text}");
    for (row, (name, _)) in rows.iter().zip(SUBCOMMANDS) {
        let purpose = row.strip_prefix(name).unwrap_or_default().trim();
        assert!(purpose.contains(' '), "{name} has no purpose: {text}");
        assert_eq!(Some(purpose), help(name).lines().next());
    }
}

#[test]
fn the_version_is_told() {
    let version = format!("fanchuki {}\n", env!("CARGO_PKG_VERSION"));
    assert_eq!(run(&["--version"]).text(), version);
    is_told(&run(&["--version", "more"]), 2, "'more' is one word too many", "--version more");
}

/// The page's text without what only sets it, its words in order.
fn page() -> String {
    let page = fs::read_to_string(root().join("install/fanchuki.1")).expect("the manual page");
    let words = |line: &str| match line.split_once(' ') {
        Some((".B" | ".I", words)) => words.to_string(),
        Some((".BR" | ".RB" | ".RI" | ".IR" | ".BI", words)) => words.replace([' ', '"'], ""),
        _ => line.to_string(),
    };
    page.replace("\\-", "-").replace("\\&", "").lines().map(words).collect::<Vec<_>>().join(" ")
}

#[test]
fn the_manual_page_has_every_usage_and_option() {
    let page = page();
    for (name, _) in SUBCOMMANDS {
        let text = help(name);
        let usage = text.lines().find_map(|line| line.strip_prefix("usage: ")).unwrap_or_default();
        assert!(page.contains(&format!(" {usage} .br ")), "the page lacks '{usage}': {page}");
        for word in text.split(|letter: char| letter.is_whitespace() || "[]'|,.;".contains(letter))
        {
            let is_option = word.len() > 1 && word.starts_with('-');
            assert!(!is_option || page.contains(word), "the page has no {word}, as {name} has");
        }
    }
}
