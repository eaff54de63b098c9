//! The C call for long, from several threads of one process: every answer and every
//! output byte equal to the model's, and no memory kept.

use std::fmt;
use std::fs;
use std::io;
use std::sync::atomic::{AtomicBool, Ordering};
use std::thread;

use crate::compare::c_call::{self, CCall, Mismatch};
use crate::compare::cases;
use crate::compare::tally::Tally;

/// Calls before the resident size is first read, so that the comparison's own memory
/// is there.
pub const WARM_UP: u64 = 20_000;
/// What the resident size may grow by from then to the end, in KB.
pub const MOST_GROWTH: u64 = 256;

/// How many calls, on how many threads.
#[derive(Clone, Copy, Debug)]
pub struct Soak {
    pub calls: u64,
    pub threads: u64,
    pub seed: u64,
}

/// What was covered, with the resident size in KB after the warm-up and at the end.
#[derive(Clone, Debug)]
pub struct Report {
    pub tally: Tally,
    pub warm: u64,
    pub end: u64,
}

impl Report {
    pub fn memory_stays(&self) -> bool {
        self.end <= self.warm + MOST_GROWTH
    }
}

impl fmt::Display for Report {
    fn fmt(&self, f: &mut fmt::Formatter) -> fmt::Result {
        write!(f, "{}", self.tally)?;
        write!(f, "resident: {} KB after the warm-up, {} KB at the end", self.warm, self.end)
    }
}

/// A warm-up on files of its own, then the calls.
pub fn soak(call: CCall, soak: Soak) -> io::Result<Result<Report, Box<Mismatch>>> {
    let warm_up = Soak { calls: WARM_UP, seed: !soak.seed, ..soak };
    if let Err(mismatch) = on_threads(call, warm_up) {
        return Ok(Err(mismatch));
    }
    let warm = resident()?;
    match on_threads(call, soak) {
        Ok(tally) => Ok(Ok(Report { tally, warm, end: resident()? })),
        Err(mismatch) => Ok(Err(mismatch)),
    }
}

fn on_threads(call: CCall, soak: Soak) -> Result<Tally, Box<Mismatch>> {
    let mismatch_met = AtomicBool::new(false);
    thread::scope(|scope| {
        let share = |number| share(call, soak, number, &mismatch_met);
        let threads: Vec<_> =
            (0..soak.threads).map(|number| scope.spawn(move || share(number))).collect();
        let mut tally = Tally::default();
        for thread in threads {
            tally.add_all(&thread.join().expect("the comparison ends")?);
        }
        Ok(tally)
    })
}

/// One thread's share of the calls; it ends early where another met a mismatch.
fn share(
    call: CCall,
    soak: Soak,
    number: u64,
    mismatch_met: &AtomicBool,
) -> Result<Tally, Box<Mismatch>> {
    let mut tally = Tally::default();
    for case in (number..).step_by(soak.threads as usize) {
        let done = tally.total() as u64 >= soak.calls.div_ceil(soak.threads);
        if done || mismatch_met.load(Ordering::Relaxed) {
            break;
        }
        let file = cases::random_file(soak.seed, case);
        let compared = c_call::compare_file(call, &file, &mut tally);
        mismatch_met.fetch_or(compared.is_err(), Ordering::Relaxed);
        compared?;
    }
    Ok(tally)
}

/// The process's resident size in KB.
fn resident() -> io::Result<u64> {
    let text = fs::read_to_string("/proc/self/smaps_rollup")?;
    let mut words = text.split_whitespace().skip_while(|&word| word != "Rss:");
    let size = words.nth(1).and_then(|word| word.parse().ok());
    size.ok_or_else(|| io::Error::other("no resident size in /proc/self/smaps_rollup"))
}
