//! The program `plan` held to the model's listing, a process for each file, and for
//! small queries to the exhaustive search.

use std::fmt;
use std::io;

use crate::compare::cases;
use crate::compare::program::{Answering, Feed};
use crate::compare::tally::Tally;
use crate::decode;
use crate::exhaustive;
use crate::generate::queries::Extent;
use crate::hex::hex;
use crate::listing;
use crate::method::Method;
use crate::stated::Form;
use crate::text;

pub const DEFAULT_SEED: u64 = 1;
pub const DEFAULT_FILES: u64 = 3_000;

/// A file on which the program and the expected answer differ.
#[derive(Clone, Debug)]
pub struct Mismatch {
    pub file: Vec<u8>,
    pub expected: String,
    pub found: String,
}

impl fmt::Display for Mismatch {
    fn fmt(&self, f: &mut fmt::Formatter) -> fmt::Result {
        writeln!(f, "query {}", hex(&self.file))?;
        write!(f, "{}", text::of_file(&self.file, Form::Sizes))?;
        write!(f, "expected:\n{}", self.expected)?;
        write!(f, "found:\n{}", self.found)
    }
}

/// The fixed files, then so many random ones.
pub fn compare(
    program: &impl Answering,
    seed: u64,
    files: u64,
) -> io::Result<Result<Tally, Box<Mismatch>>> {
    let mut tally = Tally::default();
    let random = (0..files).map(|case| cases::random_file(seed, case));
    for (number, file) in cases::fixed().into_iter().chain(random).enumerate() {
        // Now and then in two pieces, as a pipe may bring them.
        let feed = match number % 8 {
            0 => Feed::Pieces(1 + file.len() / 2),
            _ => Feed::Whole,
        };
        let found = program.run(&file, feed)?;
        let expected = listing::listing(&file, Method::Rules);
        if found != expected {
            return Ok(Err(Box::new(Mismatch { file, expected, found })));
        }
        if let Some(expected) = searched(&file) {
            let cost = cost_printed(&found);
            if cost != expected {
                let expected = format!("cheapest by exhaustive search: {expected:?}\n");
                return Ok(Err(Box::new(Mismatch { file, expected, found })));
            }
            tally.add("held to the exhaustive search");
        }
        tally.add(kind(&found));
    }
    Ok(Ok(tally))
}

/// The cheapest cost by exhaustive search, for a query that is searched at once.
fn searched(file: &[u8]) -> Option<Option<u64>> {
    let query = decode::decode(file, Form::Sizes).ok()?.query;
    if ![Extent::small(), Extent::wide()].iter().any(|extent| extent.fits(&query)) {
        return None;
    }
    let cheapest = exhaustive::cheapest(&query).expect("a small query is searched");
    Some(cheapest.map(|cost| cost.0))
}

fn cost_printed(listing: &str) -> Option<u64> {
    let mut words = listing.split_whitespace().skip_while(|&word| word != "cost");
    words.nth(1)?.parse().ok()
}

/// "plan", "no route" or "refused N".
fn kind(listing: &str) -> &str {
    let first_line = listing.lines().next().unwrap_or("");
    if first_line.starts_with("refused") {
        first_line
    } else if first_line.starts_with("plan") {
        "plan"
    } else {
        "no route"
    }
}
