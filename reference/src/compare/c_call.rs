//! The C call held to the model: the number returned and every byte of the output,
//! with guards on both sides.

use std::fmt;
use std::ptr;

use crate::answers;
use crate::c_call;
use crate::compare::cases;
use crate::compare::tally::Tally;
use crate::hex::hex;
use crate::limits::{LONGEST_PLAN, REFUSED};

pub const DEFAULT_SEED: u64 = 1;
pub const DEFAULT_COUNT: u64 = 20_000;
/// One random query in so many has all its damages tried.
const SWEEP_EVERY: u64 = 2_000;
/// Bytes before and behind the lent output.
const GUARD: usize = 64;

/// The C signature of the call.
pub type CCall = unsafe extern "C" fn(*const u8, usize, *mut u8, usize) -> u64;

/// A call whose answer or output differs from the model's.
#[derive(Clone, Debug)]
pub struct Mismatch {
    pub query: Vec<u8>,
    pub output_length: usize,
    pub expected: Outcome,
    pub found: Outcome,
}

/// The number returned, and the output with its guards.
#[derive(Clone, Debug, PartialEq, Eq)]
pub struct Outcome {
    pub returned: u64,
    pub memory: Vec<u8>,
}

impl fmt::Display for Outcome {
    fn fmt(&self, f: &mut fmt::Formatter) -> fmt::Result {
        let (before, rest) = self.memory.split_at(GUARD);
        let (output, behind) = rest.split_at(rest.len() - GUARD);
        writeln!(f, "  returned {}", self.returned)?;
        writeln!(f, "  before   {}", hex(before))?;
        writeln!(f, "  output   {}", hex(output))?;
        write!(f, "  behind   {}", hex(behind))
    }
}

impl fmt::Display for Mismatch {
    fn fmt(&self, f: &mut fmt::Formatter) -> fmt::Result {
        writeln!(f, "query {}", hex(&self.query))?;
        writeln!(f, "output of {} bytes", self.output_length)?;
        writeln!(f, "expected:\n{}", self.expected)?;
        write!(f, "found:\n{}", self.found)
    }
}

/// The fixed cases, then `count` random ones, each with outputs of several lengths.
pub fn compare(call: CCall, seed: u64, count: u64) -> Result<Tally, Box<Mismatch>> {
    let mut tally = Tally::default();
    let sweeps = (0..count / SWEEP_EVERY).flat_map(|case| cases::random_sweep(seed, case));
    let random = (0..count).map(|case| cases::random_file(seed, case));
    for file in cases::fixed().into_iter().chain(sweeps).chain(random) {
        compare_file(call, &file, &mut tally)?;
    }
    Ok(tally)
}

/// One file with outputs of several lengths: the longest plan's, and around the plan's own.
pub fn compare_file(call: CCall, file: &[u8], tally: &mut Tally) -> Result<(), Box<Mismatch>> {
    let returned = compare_one(call, file, LONGEST_PLAN, tally)?;
    if (1..REFUSED).contains(&returned) {
        let length = returned as usize;
        for length in [length, length - 1, 0, length + 1, 1_000] {
            compare_one(call, file, length, tally)?;
        }
    } else {
        compare_one(call, file, 0, tally)?;
    }
    Ok(())
}

fn compare_one(
    call: CCall,
    query: &[u8],
    length: usize,
    tally: &mut Tally,
) -> Result<u64, Box<Mismatch>> {
    let expected = outcome(length, |output| c_call::fanchuki_plan(query, output));
    let mut feeds = vec![false];
    if query.is_empty() || length == 0 {
        feeds.push(true);
    }
    for null_for_empty in feeds {
        // A copy, so that a store into the query shows.
        let lent: Box<[u8]> = query.into();
        let found = outcome(length, |output| {
            let mut query_pointer = lent.as_ptr();
            let mut output_pointer = output.as_mut_ptr();
            if null_for_empty && lent.is_empty() {
                query_pointer = ptr::null();
            }
            if null_for_empty && output.is_empty() {
                output_pointer = ptr::null_mut();
            }
            // SAFETY: both pointers are good for the lengths given, or null with length 0.
            unsafe { call(query_pointer, lent.len(), output_pointer, output.len()) }
        });
        if found != expected || *lent != *query {
            let query = query.to_vec();
            return Err(Box::new(Mismatch { query, output_length: length, expected, found }));
        }
        tally.add(&kind(found.returned));
    }
    Ok(expected.returned)
}

/// Lends an output of the length inside patterned memory and keeps all that is there
/// afterwards.
fn outcome(length: usize, call: impl FnOnce(&mut [u8]) -> u64) -> Outcome {
    let mut memory: Vec<u8> = (0..GUARD + length + GUARD).map(answers::lent_byte).collect();
    let returned = call(&mut memory[GUARD..GUARD + length]);
    Outcome { returned, memory }
}

fn kind(returned: u64) -> String {
    match returned {
        0 => "no route".to_string(),
        REFUSED.. => format!("refused {}", returned - REFUSED),
        _ => "plan".to_string(),
    }
}
