//! What the cheapest plan costs that does without a line, or without joins at a site, by the
//! proved answers.

use reference::encode::encode;
use reference::query::Line;
use reference::stated::Form;

use crate::failure::Failure;
use crate::proved::calls::Solved;
use crate::proved::loaded::Loaded;

/// With that line closed; nothing where there is no route then. The line is as it was
/// afterwards.
pub fn without_line(loaded: &mut Loaded, from: usize, to: usize) -> Result<Option<u64>, Failure> {
    let line = *loaded.query.line(from, to);
    loaded.link((from, to), Line { open: false, ..line })?;
    let next = cost(loaded)?;
    loaded.link((from, to), line)?;
    Ok(next)
}

/// With no joins at that site; nothing where there is no route then. The query is loaded again
/// afterwards.
pub fn without_joins(loaded: &mut Loaded, site: usize) -> Result<Option<u64>, Failure> {
    let mut other = loaded.query.clone();
    other.sites[site].may_join = false;
    load(loaded, &encode(&other))?;
    let next = cost(loaded)?;
    load(loaded, &encode(&loaded.query))?;
    Ok(next)
}

fn cost(loaded: &mut Loaded) -> Result<Option<u64>, Failure> {
    Ok(match loaded.solve()? {
        Solved::Plan { cost, .. } => Some(cost),
        Solved::NoRoute { .. } => None,
    })
}

/// By an ordinary file, whatever form the query came in: its sizes are worked out by now.
fn load(loaded: &mut Loaded, file: &[u8]) -> Result<(), Failure> {
    let admitted = loaded.calls.load(file, Form::Sizes)?.map(|_| ());
    admitted.map_err(|refused| {
        Failure::Fault(format!("the proved load answers refused {}", refused.number))
    })
}
