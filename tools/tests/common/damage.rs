//! Random damage of texts.

use reference::generate::queries::Extent;
use reference::random::Random;
use reference::stated::Form;
use reference::text::print;

use super::texts::random_query;

/// Words of the statements and others that stand where they should not.
pub const ODD: [&str; 44] = [
    "site",
    "sites",
    "relation",
    "relations",
    "join",
    "size",
    "rows",
    "divisor",
    "line",
    "every",
    "delivery",
    "to",
    "of",
    "is",
    "are",
    "at",
    "and",
    "may",
    "not",
    "indexed",
    "#",
    ",",
    "\t",
    "0",
    "1",
    "7",
    "8",
    "9",
    "15",
    "16",
    "64",
    "1,000",
    "-1",
    "+1",
    "1000001",
    "18446744073709551615",
    "18446744073709551616",
    "99999999999999999999999999999999",
    "\0",
    "\u{feff}",
    "\u{200b}",
    "\u{2028}",
    "é\u{301}",
    "\u{10ffff}",
];

/// One change of a text, by characters, words or lines.
fn damage(random: &mut Random, text: &str) -> String {
    let apart = random.pick(&["", " ", "\n"]);
    let mut parts: Vec<String> = match apart {
        "" => text.chars().map(String::from).collect(),
        _ => text.split(apart).map(String::from).collect(),
    };
    let (one, other) = (random.below(parts.len().max(1)), random.below(parts.len().max(1)));
    if parts.is_empty() {
        return random.pick(&ODD).to_string();
    }
    match random.below(6) {
        0 => drop(parts.remove(one)),
        1 => parts.insert(one, random.pick(&ODD).to_string()),
        2 => parts[one] = random.pick(&ODD).to_string(),
        3 => parts.swap(one, other),
        4 => parts.insert(one, parts[other].clone()),
        _ => parts.truncate(one),
    }
    parts.join(apart)
}

/// The text of a random query, changed in a few places.
pub fn damaged(random: &mut Random) -> String {
    let extent = Extent { relations: 1..=5, sites: 1..=4 };
    let form = random.pick(&Form::ALL);
    let (stated, names) = random_query(random, &extent, form);
    let mut text = print(&stated, &names);
    for _ in 0..random.pick(&[1, 1, 1, 2, 4]) {
        text = damage(random, &text);
    }
    text
}
