//! The words of the statements, and what a name and a number may be.

/// Those with which a statement begins.
pub const STATEMENTS: [&str; 11] = [
    "site",
    "sites",
    "relation",
    "relations",
    "join",
    "size",
    "rows",
    "divisor",
    "line",
    "every",
    "delivery",
];

/// The others.
const INNER: [&str; 14] = [
    "may", "not", "fixed", "rate", "to", "at", "indexed", "links", "and", "of", "is", "are",
    "open", "closed",
];

const LONGEST_NAME: usize = 64;

/// What a message says of a word that could be no name.
pub const NAME_RULE: &str =
    "; a name begins with a letter and has letters, digits, '_', '-' and '.', at most 64";

/// A word of the statements, which is no name.
pub fn is_taken(word: &str) -> bool {
    STATEMENTS.contains(&word) || INNER.contains(&word)
}

pub fn is_name(word: &str) -> bool {
    let inner = |character: char| character.is_alphanumeric() || "_-.".contains(character);
    word.starts_with(char::is_alphabetic)
        && word.chars().all(inner)
        && word.chars().count() <= LONGEST_NAME
        && !is_taken(word)
}

pub fn is_number(word: &str) -> bool {
    !word.is_empty() && word.bytes().all(|byte| byte.is_ascii_digit())
}
