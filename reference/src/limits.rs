//! The numbers of the rules, each once.

pub const MOST_SITES: usize = 8;
pub const MOST_RELATIONS: usize = 9;
pub const MOST_SIZE: u64 = 1_000_000_000;
/// Rows of a relation and divisors of a join are at least 1.
pub const MOST_ROWS: u64 = 1_000_000;
pub const MOST_DIVISOR: u64 = 1_000_000;
pub const MOST_FIXED: u64 = 1_000_000;
pub const MOST_RATE: u64 = 1_000;
/// The bytes of a full parcel.
pub const PARCEL: u64 = 8;
/// 9 loads, 8 joins, and 7 sends of each of their 17 results.
pub const MOST_STEPS: usize = 136;
/// The bytes of a plan with so many steps.
pub const LONGEST_PLAN: usize = 1 + 2 * MOST_STEPS;
pub const LONGEST_FILE: usize = 1_674;
/// The most cells that solve ever needs: 264 subqueries at eight sites.
pub const MOST_CELLS: usize = 2_112;
/// No allowed plan costs more.
pub const DEAREST_PLAN: u64 = 38_875_127_000_000;
/// The C call returns this plus the number of a refusal; no plan is as long.
pub const REFUSED: u64 = 1_024;
