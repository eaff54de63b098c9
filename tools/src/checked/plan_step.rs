//! A step of a plan as the words of a line, read.

use reference::names::Names;

use crate::near::did_you_mean;
use crate::text::scan::Word;
use crate::text::{is_number, Place};
use crate::wording::{number, quoted};

/// A reason, and where.
pub type Wrong = (Place, String);

/// Kind and argument.
pub fn step(first: &Word, rest: &[Word], names: &Names) -> Result<[u8; 2], Wrong> {
    match first.text {
        "load" => Ok([1, argument(first, rest, &["relation"], "relation", &names.relations)?]),
        "send" => Ok([2, argument(first, rest, &["to", "site"], "site", &names.sites)?]),
        "join" => Ok([3, argument(first, rest, &[], "join", &[])?]),
        "no" => Err((first.place, "where there is no route there is no plan to check".into())),
        kind if is_number(kind) => Ok([byte(first)?, argument(first, rest, &[], "number", &[])?]),
        word => {
            let meant = did_you_mean(word, ["load", "send", "join"]);
            let expected = "one is 'load RELATION', 'send SITE' or 'join NUMBER'";
            Err((first.place, format!("{} is no step: {expected}{meant}", quoted(word))))
        }
    }
}

/// The one argument of a step, behind words that may be there and say nothing.
fn argument(
    first: &Word,
    rest: &[Word],
    fillers: &[&str],
    what: &str,
    names: &[Option<String>],
) -> Result<u8, Wrong> {
    let (mut last, mut rest) = (first, rest);
    for filler in fillers {
        match rest {
            [word, more @ ..] if word.text == *filler => (last, rest) = (word, more),
            _ => {}
        }
    }
    match rest {
        [] => Err((last.end(), format!("a {what} is missing behind {}", quoted(last.text)))),
        [word] => named(word, what, names),
        [word, more, ..] => {
            named(word, what, names)?;
            Err((more.place, format!("{} is one word too many", quoted(more.text))))
        }
    }
}

fn named(word: &Word, what: &str, names: &[Option<String>]) -> Result<u8, Wrong> {
    let text = word.text;
    if let Some(number) = names.iter().position(|name| name.as_deref() == Some(text)) {
        return Ok(number as u8);
    }
    if is_number(text) {
        return byte(word);
    }
    let known: Vec<&str> = names.iter().flatten().map(String::as_str).collect();
    let meant = did_you_mean(text, known.iter().copied());
    let shown = quoted(text);
    Err((
        word.place,
        match (meant.is_empty(), known.is_empty()) {
            (_, true) => format!("{shown} is not a number"),
            (true, false) => format!("no {what} {shown}; there are {}", known.join(", ")),
            (false, false) => format!("no {what} {shown}{meant}"),
        },
    ))
}

/// A number as a plan's bytes have it.
fn byte(word: &Word) -> Result<u8, Wrong> {
    let above = format!("{} is above {}, the most in a plan", number(word.text), u8::MAX);
    word.text.parse().map_err(|_| (word.place, above))
}
