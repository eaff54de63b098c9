//! `fanchuki whatif`: what changed lines do, and how far the price of each may move.

use std::ffi::OsString;

use reference::names::Names;
use reference::query::Line;
use reference::units::{Charge, Rate};

use crate::commands::Command;
use crate::done::Done;
use crate::failure::Failure;
use crate::given::Given;
use crate::proved::calls::Solved;
use crate::proved::loaded::{Ends, Loaded};
use crate::whatif::changes::{self, Change};
use crate::whatif::margins;
use crate::whatif::told;
use crate::words::Words;

pub const COMMAND: Command = Command { name: "whatif", help: HELP, run };

const HELP: &str = "\
tells cost and plan with changed lines, and how far a line's price may move

usage: fanchuki whatif FILE --line A B [open|closed] [fixed F] [rate R] [--line ..] [--rows]

  --line   a line, from site A to site B, by names or numbers, and what is changed of it; with
           no change it is only asked about. There may be several
  --rows   a packed FILE has row counts and divisors in place of sizes

All changes are made together. Then, for each named line by itself and all others as they are in
FILE: where the cheapest plan uses it, how far its fixed amount may rise, and how far its rate,
before that plan is no longer the cheapest; where it does not, to what each must fall for the
cheapest plan to use it, the line opened first if it is closed. Ends with 1 where there is no
route after the changes.
";

fn run(words: &[OsString]) -> Result<Done, Failure> {
    let (words, asked) = split(words);
    // None is left, but near misses of it may be.
    let words = Words::take(&words, &["--rows"], &["--line"])?;
    let [file] = words.just("the FILE, which stands before the first --line,")?;
    if asked.is_empty() {
        return Err(Failure::Usage("no --line is named".into()));
    }
    let given = Given::read(file, words.has("--rows"))?;
    let changes = read(&asked, &given.names)?;
    let mut loaded = Loaded::load(given)?;
    let before = loaded.solve()?;
    let mut text = told::before(&loaded, &before)?;
    let today: Vec<(Ends, Line)> =
        changes.iter().map(|change| apply(&mut loaded, change)).collect::<Result<_, _>>()?;
    let after = loaded.solve()?;
    if changes.iter().any(|change| !change.is_empty()) {
        text += &told::after(&loaded, &today, [&before, &after])?;
    }
    for &(ends, line) in &today {
        loaded.link(ends, line)?;
    }
    for &(ends, _) in &today {
        text += &margins_of(&mut loaded, &before, ends)?;
    }
    let code = u8::from(matches!(after, Solved::NoRoute { .. }));
    Ok(Done { code, ..Done::printing(text) })
}

/// The words behind each `--line`, up to the next option, and all other words.
fn split(words: &[OsString]) -> (Vec<OsString>, Vec<Vec<OsString>>) {
    let mut others = Vec::new();
    let mut asked: Vec<Vec<OsString>> = Vec::new();
    let mut in_line = false;
    for word in words {
        let is_option = is_option(&word.to_string_lossy());
        if word == "--line" {
            asked.push(Vec::new());
            in_line = true;
        } else if let (false, true, Some(last)) = (is_option, in_line, asked.last_mut()) {
            last.push(word.clone());
        } else {
            others.push(word.clone());
            in_line = false;
        }
    }
    (others, asked)
}

/// A number below 0 is none.
fn is_option(word: &str) -> bool {
    let behind = word.strip_prefix('-').and_then(|behind| behind.chars().next());
    behind.is_some_and(|first| !first.is_ascii_digit())
}

fn read(asked: &[Vec<OsString>], names: &Names) -> Result<Vec<Change>, Failure> {
    let mut changes: Vec<Change> = Vec::new();
    for words in asked {
        let change = Change::read(words, names)?;
        let ends = |other: &Change| (other.sender, other.receiver);
        if changes.iter().any(|other| ends(other) == ends(&change)) {
            let [sender, receiver] =
                [change.sender, change.receiver].map(|site| names.site(site as usize));
            return Err(Failure::Usage(format!("the line {sender} to {receiver} is named twice")));
        }
        changes.push(change);
    }
    Ok(changes)
}

/// Changes the line by the proved link, and gives it as it was.
fn apply(loaded: &mut Loaded, change: &Change) -> Result<(Ends, Line), Failure> {
    let link = change.link(&loaded.query);
    let proved = loaded.calls.link(link)?.map_err(|refused| refused.number);
    match (proved, changes::refusal(&link, &loaded.query, &loaded.names)) {
        (Ok(()), None) => {
            let ends = (link.sender as usize, link.receiver as usize);
            let line = loaded.query.line_mut(ends.0, ends.1);
            let today = *line;
            *line = Line { open: link.open == 1, fixed: Charge(link.fixed), rate: Rate(link.rate) };
            Ok((ends, today))
        }
        (Err(number), Some((own, words))) if number == own.number() => {
            Err(Failure::Refused(format!("refused {number}: {words}")))
        }
        (proved, own) => {
            let told =
                |answer: Option<u64>| answer.map_or("done".into(), |it| format!("refused {it}"));
            let (proved, own) = (told(proved.err()), told(own.map(|(own, _)| own.number())));
            Err(Failure::Fault(format!(
                "the proved link answers {proved}, the tool comes to {own}"
            )))
        }
    }
}

fn margins_of(loaded: &mut Loaded, before: &Solved, ends: Ends) -> Result<String, Failure> {
    let Solved::Plan { plan, .. } = before else {
        return Ok(told::no_margins(loaded, ends));
    };
    let margins = margins::margins(loaded, plan, ends)?;
    Ok(told::margins(loaded, ends, margins))
}
