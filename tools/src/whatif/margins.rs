//! How far the price of one line may move: searched over the proved answers.
//!
//! A plan's cost is a straight line in the fixed amount of a line between sites, as steep as the
//! plan has sends over it, and in its rate, as steep as these have parcels. The cheapest cost is
//! the least of such straight lines, whatever the routes of the plans, so it is concave. Today's
//! plan less the cheapest is convex, never below 0, and 0 today: once it is above 0 it stays so.
//!
//! Plans that do not use the line keep their cost while those that use it only get dearer, or
//! stay where nothing of it is charged. Of plans that cost the least one order decides that no
//! price has a part in: the lowest site of the last join, then the fewest sends and the lowest
//! next sites from there, then the lowest join, and so on for its two parts. So a plan that is
//! taken and does not use the line is taken ever after, while the line gets dearer.

use reference::limits::{MOST_FIXED, MOST_RATE};
use reference::query::Line;
use reference::units::{Charge, Rate};

use crate::failure::Failure;
use crate::proved::calls::Solved;
use crate::proved::loaded::{Ends, Loaded};
use crate::whatif::lines;

#[derive(Clone, Copy, Debug, PartialEq, Eq)]
pub enum Margins {
    /// Today's plan uses the line, and is the cheapest up to these, each by itself.
    Used { fixed: u64, rate: u64 },
    /// It does not. Opened where it is closed, the line is used up to these, each by itself, if
    /// at all; and where neither is enough, whether it is used with both at 0.
    Unused { fixed: Option<u64>, rate: Option<u64>, both: bool },
}

/// Of the line, all others as they stand, and today's plan. Leaves the line as it was.
pub fn margins(loaded: &mut Loaded, today: &[u8], ends: Ends) -> Result<Margins, Failure> {
    let line = *loaded.query.line(ends.0, ends.1);
    let used = lines::uses(&loaded.query, today, ends);
    let found = if used { rise(loaded, today, ends, line) } else { fall(loaded, ends, line) };
    loaded.link(ends, line)?;
    found
}

fn rise(loaded: &mut Loaded, today: &[u8], ends: Ends, line: Line) -> Result<Margins, Failure> {
    let mut cheapest = |changed: Line| {
        loaded.link(ends, changed)?;
        let checked = loaded.calls.check(today)?;
        match (loaded.solve()?, checked) {
            (Solved::Plan { cost, .. }, Ok(checked)) => Ok(cost == checked),
            _ => Err(Failure::Fault("today's plan is refused at another price of its line".into())),
        }
    };
    let fixed = largest(line.fixed.0, MOST_FIXED, |fixed| cheapest(with_fixed(line, fixed)))?;
    let rate = largest(line.rate.0, MOST_RATE, |rate| cheapest(with_rate(line, rate)))?;
    match (fixed, rate) {
        (Some(fixed), Some(rate)) => Ok(Margins::Used { fixed, rate }),
        _ => Err(Failure::Fault("today's plan is not the cheapest at today's prices".into())),
    }
}

fn fall(loaded: &mut Loaded, ends: Ends, line: Line) -> Result<Margins, Failure> {
    let opened = Line { open: true, ..line };
    let mut used = |changed: Line| {
        loaded.link(ends, changed)?;
        Ok(match loaded.solve()? {
            Solved::Plan { plan, .. } => lines::uses(&loaded.query, &plan, ends),
            Solved::NoRoute { .. } => false,
        })
    };
    let fixed = largest(0, MOST_FIXED, |fixed| used(with_fixed(opened, fixed)))?;
    let rate = largest(0, MOST_RATE, |rate| used(with_rate(opened, rate)))?;
    let both = fixed.is_none() && rate.is_none() && used(with_fixed(with_rate(opened, 0), 0))?;
    Ok(Margins::Unused { fixed, rate, both })
}

fn with_fixed(line: Line, fixed: u64) -> Line {
    Line { fixed: Charge(fixed), ..line }
}

fn with_rate(line: Line, rate: u64) -> Line {
    Line { rate: Rate(rate), ..line }
}

/// The largest value at which it holds, of those from the least on; it never holds again after
/// one at which it does not.
fn largest(
    least: u64,
    most: u64,
    mut holds: impl FnMut(u64) -> Result<bool, Failure>,
) -> Result<Option<u64>, Failure> {
    if !holds(least)? {
        return Ok(None);
    }
    if holds(most)? {
        return Ok(Some(most));
    }
    let (mut last, mut first_not) = (least, most);
    while first_not - last > 1 {
        let middle = last + (first_not - last) / 2;
        if holds(middle)? {
            last = middle;
        } else {
            first_not = middle;
        }
    }
    Ok(Some(last))
}
