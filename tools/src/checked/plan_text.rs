//! A plan as text, read: a step a line, by names or by numbers.

use reference::limits::MOST_STEPS;
use reference::names::Names;

use crate::checked::plan_step::{self, Wrong};
use crate::text::scan::{self, Word};
use crate::text::{Fault, Faults};

/// The plan's bytes, and the line, from 1, of each step.
#[derive(Clone, Debug, Default, PartialEq, Eq)]
pub struct PlanText {
    pub plan: Vec<u8>,
    pub lines: Vec<usize>,
}

/// The plan, or every fault of the text. Numbers that fit a byte are taken as they are: whether
/// the query has them is for the check to say.
pub fn parse(text: &str, names: &Names) -> Result<PlanText, Vec<Fault>> {
    let mut steps = Vec::new();
    let mut lines = Vec::new();
    let mut faults = Faults::default();
    let mut heading_may_come = true;
    for (line, content) in (1..).zip(scan::lines(text)) {
        let words = scan::words(line, content);
        let Some((first, rest)) = words.split_first() else { continue };
        let is_heading = first.text == "plan" && heading_may_come;
        heading_may_come = false;
        let read = if is_heading {
            heading(first, rest).map(|()| None)
        } else {
            plan_step::step(first, rest, names).map(Some)
        };
        match read {
            Ok(Some(_)) if lines.len() == MOST_STEPS => {
                let reason = format!("a plan has at most {MOST_STEPS} steps, and this is one more");
                faults.tell(first.place, reason);
                break;
            }
            Ok(Some(step)) => {
                steps.extend(step);
                lines.push(line);
            }
            Ok(None) => {}
            Err((place, reason)) => faults.tell(place, reason),
        }
    }
    if !faults.is_empty() {
        return Err(faults.in_order());
    }
    let count = [lines.len() as u8];
    Ok(PlanText { plan: count.into_iter().chain(steps).collect(), lines })
}

/// As `plan` prints it; what it says of the plan has no part in the check.
fn heading(first: &Word, rest: &[Word]) -> Result<(), Wrong> {
    let told: Vec<&str> = rest.iter().map(|word| word.text).collect();
    let number = |word: &str| word.parse::<u64>().is_ok();
    match told[..] {
        [steps, "cost", cost, "trials", trials]
            if [steps, cost, trials].into_iter().all(number) =>
        {
            Ok(())
        }
        _ => Err((first.place, "a heading is 'plan N cost N trials N', or is left out".into())),
    }
}
