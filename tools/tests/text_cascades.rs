//! One fault is told as one: nothing that only follows from it.

mod common;

use common::texts::{by_rows, told, NAMED};
use fanchuki::text::parse;

/// Every text that comes of the text by changing one word.
fn changed(text: &str, change: impl Fn(&str) -> String) -> Vec<(String, String)> {
    let lines: Vec<&str> = text.lines().collect();
    let mut texts = Vec::new();
    for (place, line) in lines.iter().enumerate() {
        let words: Vec<&str> = line.split(' ').collect();
        for (number, word) in words.iter().enumerate() {
            let mut words: Vec<String> = words.iter().map(|word| word.to_string()).collect();
            words[number] = change(word);
            let mut lines: Vec<String> = lines.iter().map(|line| line.to_string()).collect();
            lines[place] = words.join(" ");
            texts
                .push((format!("{}: {word} -> {}", lines[place], words[number]), lines.join("\n")));
        }
    }
    texts
}

/// One word that is wrong, left out or there twice is one fault, or none.
#[test]
fn a_changed_word_is_one_fault() {
    let changes: [fn(&str) -> String; 7] = [
        |_| "@".into(),
        |_| "zzz".into(),
        |_| "77".into(),
        |_| "is".into(),
        |_| String::new(),
        |word| format!("{word} {word}"),
        |word| word.chars().rev().collect(),
    ];
    let mut refused = 0;
    for text in [NAMED, &by_rows()] {
        for (heading, text) in changes.iter().flat_map(|change| changed(text, change)) {
            let faults = parse(&text).err().unwrap_or_default();
            assert!(faults.len() <= 1, "{heading}\n{}", told(&faults));
            refused += faults.len();
        }
    }
    assert!(refused > 1_000, "{refused}");
}

/// A statement that is left out is one fault, and one that is there twice.
#[test]
fn a_lost_or_repeated_line_is_one_fault() {
    for text in [NAMED, &by_rows()] {
        let lines: Vec<&str> = text.lines().collect();
        for place in 0..lines.len() {
            let mut without = lines.clone();
            without.remove(place);
            let faults = parse(&without.join("\n")).expect_err(lines[place]);
            assert_eq!(faults.len(), 1, "{}\n{}", lines[place], told(&faults));
            let mut twice = lines.clone();
            twice.insert(place, lines[place]);
            let faults = parse(&twice.join("\n")).expect_err(lines[place]);
            assert_eq!(faults.len(), 1, "{}\n{}", lines[place], told(&faults));
            assert_eq!(faults[0].place.line, place + 2, "{}", faults[0]);
        }
    }
}

/// As many faults as there are, each at its place.
#[test]
fn faults_that_have_nothing_to_do_with_each_other_are_all_told() {
    let places = |text: &str| -> Vec<usize> {
        parse(text).expect_err("faults").iter().map(|fault| fault.place.line).collect()
    };
    let mut text = NAMED.to_string();
    let mut expected = Vec::new();
    for (line, from, to) in [
        (1, "fixed 2", "fixed 2000000"),
        (2, "may not join", "may not jion"),
        (3, "site west", "stie west"),
        (4, "indexed", "indexd"),
        (5, "at south", "at suoth"),
        (10, "customers is 4", "customers is four"),
        (11, "items is 7", "items is 7 7"),
        (13, "orders items is 5", "orders orders is 5"),
        (15, "open", "ajar"),
        (16, "delivery to north", "delivery to nrth"),
    ] {
        assert!(text.contains(from), "{from}");
        text = text.replacen(from, to, 1);
        expected.push(line);
        assert_eq!(places(&text), expected, "{text}");
    }
}
