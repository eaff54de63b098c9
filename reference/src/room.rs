//! Room: how heavy a query will be, told from the number of its relations, the number of its
//! sites and its joins alone. There is no state in it.

use crate::limits::{MOST_RELATIONS, MOST_SITES};
use crate::query::Query;
use crate::refusal::Refusal;
use crate::sets;
use crate::tree::{self, Join};

/// The arguments of a room call, as wide as they come. Of a query only this is drafted.
#[derive(Clone, Debug, PartialEq, Eq)]
pub struct Draft {
    pub relations: u64,
    pub sites: u64,
    /// Two bytes for each join, as they stand in a file behind the count of Joins.
    pub joins: Vec<u8>,
}

/// What an admitted room answers.
#[derive(Clone, Copy, Debug, PartialEq, Eq)]
pub struct Figures {
    pub subqueries: u64,
    /// A cell for each subquery and site.
    pub cells: u64,
    pub trials: u64,
}

impl Draft {
    pub fn new(relations: u64, sites: u64, joins: &[Join]) -> Draft {
        let ends = |join: &Join| [join.first as u8, join.second as u8];
        Draft { relations, sites, joins: joins.iter().flat_map(ends).collect() }
    }

    /// What a query was before it had sizes, prices and homes.
    pub fn of(query: &Query) -> Draft {
        Draft::new(query.relations.len() as u64, query.sites.len() as u64, query.joins())
    }
}

pub fn room(draft: &Draft) -> Result<Figures, Refusal> {
    let n = within(draft.relations, MOST_RELATIONS)?;
    let s = within(draft.sites, MOST_SITES)?;
    let joins = joins(&draft.joins, n)?;
    Ok(figures(&joins, n, s))
}

/// A number from 1 to the limit; it is judged whole, and only then made narrower.
fn within(number: u64, most: usize) -> Result<usize, Refusal> {
    match number {
        0 => Err(Refusal::WrongCount),
        _ if number > most as u64 => Err(Refusal::WrongCount),
        _ => Ok(number as usize),
    }
}

/// How many bytes there are comes before what stands in them, and that before what they reach.
fn joins(bytes: &[u8], n: usize) -> Result<Vec<Join>, Refusal> {
    if bytes.len() != 2 * (n - 1) {
        return Err(Refusal::WrongCount);
    }
    if bytes.iter().any(|&relation| usize::from(relation) >= n) {
        return Err(Refusal::OutOfRange);
    }
    let join = |ends: &[u8]| Join { first: usize::from(ends[0]), second: usize::from(ends[1]) };
    let joins: Vec<Join> = bytes.chunks_exact(2).map(join).collect();
    if tree::grown(&joins, 0, sets::everything(n), None) != sets::everything(n) {
        return Err(Refusal::NotReached);
    }
    Ok(joins)
}

/// Every set of relations that is connected is counted, with its relations less one.
pub fn figures(joins: &[Join], n: usize, s: usize) -> Figures {
    let subqueries = tree::subqueries(joins, n);
    let tried: usize = subqueries.iter().map(|&subquery| sets::count(subquery) - 1).sum();
    Figures {
        subqueries: subqueries.len() as u64,
        cells: (subqueries.len() * s) as u64,
        trials: (tried * s) as u64,
    }
}
