//! Turns of speech that several messages share.

use reference::names::Names;
use reference::rules::Held;
use reference::sets::{self, Set};
use reference::tree::{self, Join};

/// Of a word in a message.
const LONGEST_SHOWN: usize = 40;

/// "a", "a and b", "a, b and c".
pub fn list(words: &[String]) -> String {
    match words {
        [] => "none".to_string(),
        [one] => one.clone(),
        [front @ .., last] => format!("{} and {last}", front.join(", ")),
    }
}

/// So many of them at most, and how many more: "a, b and 2 more".
pub fn list_some(words: &[String], most: usize) -> String {
    match words.split_at_checked(most) {
        Some((shown, [_, ..])) => format!("{} and {} more", shown.join(", "), words.len() - most),
        _ => list(words),
    }
}

/// The word in quotes, cut where it is long; what can't be seen is told by its number.
pub fn quoted(word: &str) -> String {
    let mut shown: String = word.chars().take(LONGEST_SHOWN).map(visible).collect();
    if word.chars().count() > LONGEST_SHOWN {
        shown.push_str("..");
    }
    format!("'{shown}'")
}

/// A number as it is written, or in quotes where it is long.
pub fn number(digits: &str) -> String {
    if digits.len() < 20 {
        digits.to_string()
    } else {
        quoted(digits)
    }
}

fn visible(character: char) -> String {
    if is_unseen(character) && !character.is_alphanumeric() {
        character.escape_debug().to_string()
    } else {
        character.to_string()
    }
}

/// Whether it takes no column of its own or moves the cursor.
pub fn is_unseen(character: char) -> bool {
    !"'\"\\".contains(character) && character.escape_debug().len() > 1
}

/// "1 byte", "2 bytes", "no bytes".
pub fn counted(count: usize, one: &str) -> String {
    match count {
        0 => format!("no {one}s"),
        _ => numbered(count as u64, one),
    }
}

/// "1 byte", "2 bytes", "0 bytes", where numbers stand in a row.
pub fn numbered(number: u64, one: &str) -> String {
    format!("{number} {one}{}", if number == 1 { "" } else { "s" })
}

/// "0 to 2", or the one number that there is.
pub fn range(least: u64, most: u64) -> String {
    if least == most {
        return least.to_string();
    }
    format!("{least} to {most}")
}

/// Every relation of a set: "customers, orders and relation 3".
pub fn each_relation(names: &Names, set: Set) -> String {
    let each: Vec<String> = sets::members(set).map(|one| names.the_relation(one)).collect();
    list(&each)
}

/// The relations of a set: one by itself, several in braces.
pub fn relations(names: &Names, set: Set) -> String {
    if sets::count(set) == 1 {
        return names.the_relation(sets::lowest(set));
    }
    let each: Vec<String> = sets::members(set).map(|relation| names.relation(relation)).collect();
    format!("{{{}}}", each.join(", "))
}

/// A held result and where it stands.
pub fn held(names: &Names, held: &Held) -> String {
    format!("{} at {}", relations(names, held.set), names.the_site(held.site))
}

/// Why the joins of n relations are refused with 4.
pub fn not_reached(names: &Names, joins: &[Join], n: usize) -> String {
    let everything = sets::everything(n);
    let missing = everything & !tree::grown(joins, 0, everything, None);
    let missing = each_relation(names, missing);
    format!("the joins do not reach {missing} from {}", names.the_relation(0))
}
