//! Sizes that are worked out from row counts: from the rows of each relation and a divisor
//! for each join.

use crate::limits::MOST_SIZE;
use crate::sets::{self, Set};
use crate::tree::{self, Join};
use crate::units::Bytes;

/// What a query may state in place of its sizes.
#[derive(Clone, Debug, PartialEq, Eq)]
pub struct RowCounts {
    /// By relation.
    pub rows: Vec<u64>,
    /// By join.
    pub divisors: Vec<u64>,
}

impl RowCounts {
    /// The sizes of all subqueries, ascending, each worked out by itself.
    pub fn sizes(&self, joins: &[Join]) -> Vec<Bytes> {
        let subqueries = tree::subqueries(joins, self.rows.len());
        subqueries.into_iter().map(|subquery| self.size(joins, subquery)).collect()
    }

    /// The rows of the lowest relation, until the next one joins in: then what there is times
    /// its rows over the join's divisor, rounded up and cut to the limit at each step.
    pub fn size(&self, joins: &[Join], subquery: Set) -> Bytes {
        let lowest = sets::lowest(subquery);
        let mut taken = sets::single(lowest);
        let mut size = u128::from(self.rows[lowest]);
        while let Some((relation, join)) = next(joins, subquery, taken) {
            let product = size * u128::from(self.rows[relation]);
            let rounded_up = product.div_ceil(u128::from(self.divisors[join]));
            size = rounded_up.min(u128::from(MOST_SIZE));
            taken |= sets::single(relation);
        }
        assert_eq!(taken, subquery, "only a subquery has a size");
        Bytes(size as u64)
    }
}

/// The lowest relation of the subquery that is not taken and adjacent to one that is, and the
/// join between the two.
fn next(joins: &[Join], subquery: Set, taken: Set) -> Option<(usize, usize)> {
    sets::members(subquery & !taken).find_map(|relation| {
        let adjacent = |join: &Join| join.between(taken, sets::single(relation));
        joins.iter().position(adjacent).map(|join| (relation, join))
    })
}
