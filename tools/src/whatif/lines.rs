//! The lines of a query: in words, and whether a plan uses one.

use reference::query::{Line, Query};
use reference::rules::Stack;
use reference::step::Step;

use crate::listing;
use crate::proved::loaded::Ends;

/// "open, fixed 1, rate 1"
pub fn described(line: &Line) -> String {
    let open = if line.open { "open" } else { "closed" };
    format!("{open}, fixed {}, rate {}", line.fixed.0, line.rate.0)
}

/// Whether a plan, allowed for the query, sends over the line.
pub fn uses(query: &Query, plan: &[u8], ends: Ends) -> bool {
    let mut stack = Stack::default();
    listing::steps(query, plan).unwrap_or_default().into_iter().any(|step| {
        let from = stack.held.last().map(|top| top.site);
        let allowed = stack.step(query, step).is_ok();
        allowed && step == Step::Send { to: ends.1 } && from == Some(ends.0)
    })
}
