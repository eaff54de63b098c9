//! The two loads held to each other, with no planner of the model between: a program prints
//! the same when each file with rows gives way to the ordinary file with the sizes worked out.

use crate::compare::calls_mismatch::{script, Compared, Mismatch};
use crate::compare::program::{Answering, Feed};
use crate::compare::tally::Tally;
use crate::decode::decode;
use crate::encode::encode;
use crate::script::Call;
use crate::stated::Form;

/// How often a load from rows was held to an ordinary one.
pub const HELD: &str = "load from rows, held to the ordinary load";

pub fn compare(program: &impl Answering, calls: &[Call], tally: &mut Tally) -> Compared {
    let mut loads = 0;
    let by_sizes: Vec<Call> = calls
        .iter()
        .map(|call| {
            let ordinary = with_sizes(call);
            loads += usize::from(ordinary.is_some());
            ordinary.unwrap_or_else(|| call.clone())
        })
        .collect();
    if loads == 0 {
        return Ok(Ok(()));
    }
    let expected = program.run(&script(&by_sizes, &[]), Feed::Whole)?;
    let found = program.run(&script(calls, &[]), Feed::Whole)?;
    if found != expected {
        let (expected, found) = from_where_they_differ(&expected, &found);
        let calls = calls.to_vec();
        return Ok(Err(Box::new(Mismatch { calls, tail: Vec::new(), expected, found })));
    }
    (0..loads).for_each(|_| tally.add(HELD));
    Ok(Ok(()))
}

/// The ordinary load in place of a load from rows that is not refused.
fn with_sizes(call: &Call) -> Option<Call> {
    match call {
        Call::Load { form: Form::Rows, file } => {
            let stated = decode(file, Form::Rows).ok()?;
            Some(Call::Load { form: Form::Sizes, file: encode(&stated.query) })
        }
        _ => None,
    }
}

/// The lines from the first one on in which the two differ.
fn from_where_they_differ(one: &str, other: &str) -> (Vec<String>, Vec<String>) {
    let lines = |text: &str| text.split_inclusive('\n').map(String::from).collect::<Vec<_>>();
    let (one, other) = (lines(one), lines(other));
    let same = one.iter().zip(&other).take_while(|(one, other)| one == other).count();
    (one[same..].to_vec(), other[same..].to_vec())
}
