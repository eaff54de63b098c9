//! Changed lines: what they do to the plan, and how far the price of one may move.

pub mod changes;
pub mod lines;
pub mod margins;
pub mod told;
