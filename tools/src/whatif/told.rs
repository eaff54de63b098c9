//! What `whatif` prints: the plans before and after, and the margins of a line.

use std::cmp::Ordering;

use reference::limits::{MOST_FIXED, MOST_RATE};
use reference::query::Line;

use crate::failure::Failure;
use crate::listing;
use crate::proved::calls::Solved;
use crate::proved::loaded::{Ends, Loaded};
use crate::whatif::lines;
use crate::whatif::margins::Margins;

pub fn before(loaded: &Loaded, before: &Solved) -> Result<String, Failure> {
    Ok(format!("before: {}", listed(loaded, before)?))
}

/// The changes, the plan that they lead to, and what it costs more or less. The loaded query
/// has the changes, and `today` each line as it was.
pub fn after(
    loaded: &Loaded,
    today: &[(Ends, Line)],
    [before, after]: [&Solved; 2],
) -> Result<String, Failure> {
    let mut text = String::from("\n");
    for &(ends, was) in today {
        let now = loaded.query.line(ends.0, ends.1);
        if *now != was {
            let (line, was) = (named(loaded, ends), lines::described(&was));
            text += &format!("changed: {line}, {}; was {was}\n", lines::described(now));
        }
    }
    if text == "\n" {
        text += "changed: nothing, since it is so already\n";
    }
    text += &match (before, after) {
        (Solved::Plan { plan: one, .. }, Solved::Plan { plan: other, cost, .. })
            if one == other =>
        {
            format!("after: the same plan, cost {cost}\n")
        }
        _ => format!("after: {}", listed(loaded, after)?),
    };
    Ok(text + &difference(before, after) + "\n")
}

fn listed(loaded: &Loaded, solved: &Solved) -> Result<String, Failure> {
    listing::solved(&loaded.query, &loaded.names, solved)
}

fn difference(before: &Solved, after: &Solved) -> String {
    match (before, after) {
        (Solved::Plan { cost: before, .. }, Solved::Plan { cost: after, .. }) => {
            let moves =
                |how: &str, by: u64| format!("the cost {how} by {by}, from {before} to {after}");
            match after.cmp(before) {
                Ordering::Equal => format!("the cost stays {before}"),
                Ordering::Greater => moves("rises", after - before),
                Ordering::Less => moves("falls", before - after),
            }
        }
        (Solved::Plan { .. }, _) => "there is no route any more".to_string(),
        (_, Solved::Plan { cost, .. }) => format!("there was no route, and there is one at {cost}"),
        _ => "there is no route, as before".to_string(),
    }
}

fn named(loaded: &Loaded, ends: Ends) -> String {
    let [sender, receiver] = [ends.0, ends.1].map(|site| loaded.names.the_site(site));
    format!("line from {sender} to {receiver}")
}

pub fn no_margins(loaded: &Loaded, ends: Ends) -> String {
    let line = loaded.query.line(ends.0, ends.1);
    let (name, line) = (named(loaded, ends), lines::described(line));
    format!("\n{name}, {line}: no route today, so no plan to measure its price by\n")
}

pub fn margins(loaded: &Loaded, ends: Ends, margins: Margins) -> String {
    let line = loaded.query.line(ends.0, ends.1);
    let (name, terms) = (named(loaded, ends), lines::described(line));
    let fixed = Amount { what: "fixed", now: line.fixed.0, most: MOST_FIXED };
    let rate = Amount { what: "rate", now: line.rate.0, most: MOST_RATE };
    match margins {
        Margins::Used { fixed: fixed_to, rate: rate_to } => {
            let told = rise(&fixed, fixed_to, &rate) + &rise(&rate, rate_to, &fixed);
            format!("\n{name}, {terms}: today's plan uses it, and stays the cheapest\n{told}")
        }
        Margins::Unused { fixed: fixed_to, rate: rate_to, both } => {
            let fall = if line.open { fall } else { opened };
            let mut told = fall(&fixed, fixed_to, &rate) + &fall(&rate, rate_to, &fixed);
            if fixed_to.is_none() && rate_to.is_none() {
                let not_even = if both { "" } else { "not even " };
                told += &format!("  {not_even}fixed 0 and rate 0 together would do\n");
            }
            format!("\n{name}, {terms}: today's plan does not use it\n{told}")
        }
    }
}

/// Of a line's two amounts the one that moves, or the one that stays as it is.
struct Amount {
    what: &'static str,
    now: u64,
    most: u64,
}

/// Of a line that today's plan uses.
fn rise(Amount { what, now, most }: &Amount, to: u64, other: &Amount) -> String {
    let with = format!("with {} {} as it is", other.what, other.now);
    if to == *most {
        format!("  up to the limit, {what} {to}, {with}\n")
    } else if to == *now {
        format!("  up to {what} {to} and no further, {with}\n")
    } else {
        format!("  up to {what} {to}, {} more, {with}\n", to - now)
    }
}

/// Of one that it does not use.
fn fall(Amount { what, .. }: &Amount, to: Option<u64>, other: &Amount) -> String {
    let with = format!("with {} {} as it is", other.what, other.now);
    match to {
        None => format!("  not even {what} 0 would do, {with}\n"),
        Some(to) => format!("  {what} must fall to {to} to have it used, {with}\n"),
    }
}

/// Of one that it does not use since it is closed.
fn opened(Amount { what, most, .. }: &Amount, to: Option<u64>, other: &Amount) -> String {
    let with = format!("with {} {} as it is", other.what, other.now);
    match to {
        None => format!("  opened, not even {what} 0 would do, {with}\n"),
        Some(to) if to == *most => {
            format!("  opened, it is used up to the limit, {what} {to}, {with}\n")
        }
        Some(to) => format!("  opened, it is used up to {what} {to}, {with}\n"),
    }
}
