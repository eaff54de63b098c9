//! `soak [CALLS] [THREADS] [SEED]`: so many calls of the linked archive from several
//! threads, each held to the model, with the process's memory watched. Ends with 1 at
//! the first mismatch, or where the memory grew.

use std::env;
use std::process::ExitCode;

use diff_c::fanchuki_plan;
use reference::compare::soak::{soak, Soak, MOST_GROWTH};

fn main() -> ExitCode {
    let Some(asked) = arguments() else {
        eprintln!("usage: soak [CALLS] [THREADS] [SEED]");
        return ExitCode::from(2);
    };
    match soak(fanchuki_plan, asked) {
        Ok(Ok(report)) => {
            println!("{report}");
            if !report.memory_stays() {
                println!("MEMORY GREW by more than {MOST_GROWTH} KB");
                return ExitCode::FAILURE;
            }
            let calls = report.tally.total();
            println!("no mismatch: seed {}, {calls} calls, {} threads", asked.seed, asked.threads);
            ExitCode::SUCCESS
        }
        Ok(Err(mismatch)) => {
            println!("MISMATCH (seed {})\n{mismatch}", asked.seed);
            ExitCode::FAILURE
        }
        Err(error) => {
            eprintln!("soak: {error}");
            ExitCode::from(2)
        }
    }
}

fn arguments() -> Option<Soak> {
    let number = |place: usize, default: u64| match env::args().nth(place) {
        Some(text) => text.parse().ok(),
        None => Some(default),
    };
    let (calls, threads, seed) = (number(1, 1_000_000)?, number(2, 4)?, number(3, 1)?);
    (calls > 0 && threads > 0).then_some(Soak { calls, threads, seed })
}
