//! Telling a wrong method from a right answer: a query on which the two differ, the
//! shortest of those that a run of random queries meets.

use std::io;

use crate::compare::cases;
use crate::compare::plan::Mismatch;
use crate::encode;
use crate::listing;
use crate::method::Method;
use crate::pinned;
use crate::pinned_indexes;
use crate::pinned_routes;

pub const DEFAULT_SEED: u64 = 1;
/// Random files tried for each method.
pub const DEFAULT_FILES: u64 = 3_000;

/// What a run found of one method.
#[derive(Clone, Debug)]
pub enum Verdict {
    /// A query with its right answer as `expected` and the method's as `found`.
    Told(Mismatch),
    /// The method answered all files as the model does.
    NotTold,
    /// The answer that should be right is not the model's, so it tells nothing.
    NotRight(Mismatch),
}

/// Holds `answer` to the model on the shortest file on which the method differs from the
/// model: the answers differ in their figures, or for another way of writing the same in
/// the steps.
pub fn told_apart(
    method: Method,
    seed: u64,
    files: u64,
    answer: impl FnOnce(&[u8]) -> io::Result<String>,
) -> io::Result<Verdict> {
    let rows = pinned::rows().into_iter().map(|(query, _)| query);
    let worked = pinned_indexes::worked().into_iter().chain(pinned_routes::worked());
    let worked = worked.map(|worked| worked.query);
    let pinned = rows.chain([pinned::lower_site_at_a_tie()]).chain(worked);
    let pinned = pinned.map(|query| encode::encode(&query));
    let random = (0..files).map(|case| cases::random_file(seed, case));
    let apart = pinned.chain(random).filter(|file| differ(method, file));
    let Some(file) = apart.min_by_key(|file| file.len()) else {
        return Ok(Verdict::NotTold);
    };
    let (expected, answered) = (listing::listing(&file, Method::Rules), answer(&file)?);
    if answered != expected {
        return Ok(Verdict::NotRight(Mismatch { file, expected, found: answered }));
    }
    let found = listing::listing(&file, method);
    Ok(Verdict::Told(Mismatch { file, expected, found }))
}

/// The model and the method give different answers.
fn differ(method: Method, file: &[u8]) -> bool {
    let (model, wrong) = (listing::listing(file, Method::Rules), listing::listing(file, method));
    if method.costs_the_same() {
        model != wrong
    } else {
        model.lines().next() != wrong.lines().next()
    }
}
