//! A program held to itself: calls for one query after another, and the lines that it prints
//! for each looked at beside each other.

use crate::compare::calls_mismatch::{script, Compared, Mismatch};
use crate::compare::program::{Answering, Feed};
use crate::compare::tally::Tally;
use crate::script::Call;

/// Queries that one process of the program is given.
const IN_A_SCRIPT: usize = 2_000;

pub trait Case {
    /// Each prints one line, but for what became of the lent areas.
    fn calls(&self) -> Vec<Call>;

    /// Nothing where the lines can stand beside each other; else what must stand there, and
    /// by what.
    fn fault(&self, found: &[&str]) -> Option<String>;

    /// How the tally names what was held.
    fn held(&self) -> String;
}

pub fn compare<C: Case>(
    program: &impl Answering,
    cases: impl Iterator<Item = C>,
    tally: &mut Tally,
) -> Compared {
    let mut cases = cases.peekable();
    while cases.peek().is_some() {
        let some: Vec<C> = cases.by_ref().take(IN_A_SCRIPT).collect();
        if let Err(mismatch) = compare_some(program, &some, tally)? {
            return Ok(Err(mismatch));
        }
    }
    Ok(Ok(()))
}

fn compare_some<C: Case>(program: &impl Answering, cases: &[C], tally: &mut Tally) -> Compared {
    let calls: Vec<Call> = cases.iter().flat_map(Case::calls).collect();
    let printed = program.run(&script(&calls, &[]), Feed::Whole)?;
    // An area that was changed is a line too many.
    let kept = |line: &&str| matches!(*line, "cells OK" | "output OK");
    let lines: Vec<&str> = printed.lines().filter(|line| !kept(line)).collect();
    let mut from = 0;
    for (number, case) in cases.iter().enumerate() {
        let calls = case.calls();
        // Whatever follows the last line must not be passed over.
        let to = if number + 1 == cases.len() { lines.len() } else { from + calls.len() };
        let found = lines.get(from..to).unwrap_or(&[]);
        if let Some(expected) = case.fault(found) {
            let found = found.iter().map(|line| format!("{line}\n")).collect();
            let expected = vec![format!("{expected}\n")];
            return Ok(Err(Box::new(Mismatch { calls, tail: Vec::new(), expected, found })));
        }
        tally.add(&case.held());
        from += calls.len();
    }
    Ok(Ok(()))
}
