//! Random queries of either form, with rows and divisors from all alike to the limits.

use crate::generate::queries::{self, Extent};
use crate::limits::{MOST_DIVISOR, MOST_ROWS};
use crate::random::Random;
use crate::rows::RowCounts;
use crate::stated::{Form, Stated};

/// A random query, stated in the form.
pub fn stated(random: &mut Random, extent: &Extent, form: Form) -> Stated {
    let query = queries::query(random, extent);
    match form {
        Form::Sizes => query.into(),
        Form::Rows => {
            let counts = counts(random, query.relations.len());
            Stated::from_rows(query, counts)
        }
    }
}

/// Where the rows, or the divisors, of one query lie.
#[derive(Clone, Copy, Debug)]
enum Values {
    /// One value for all.
    Alike(u64),
    /// Small ones, which are rounded often.
    UpTo(u64),
    /// Large ones, which are cut often.
    Large,
    /// All orders of magnitude up to the limit.
    Spread,
    /// Both limits and beside them: a size that is cut at one step is divided at another.
    Ends,
}

impl Values {
    fn choose(random: &mut Random, most: u64) -> Values {
        match random.below(10) {
            0 => Values::Alike(1),
            1 => Values::Alike(most),
            2 | 3 => Values::UpTo(3),
            4 | 5 => Values::UpTo(20),
            6 => Values::Large,
            7 => Values::Spread,
            _ => Values::Ends,
        }
    }

    fn draw(self, random: &mut Random, most: u64) -> u64 {
        match self {
            Values::Alike(value) => value,
            Values::UpTo(limit) => random.between(1, limit),
            Values::Large => random.between(most / 2, most),
            Values::Spread => random.spread(most).max(1),
            Values::Ends => random.pick(&[1, 2, 3, most - 1, most, most]),
        }
    }
}

fn counts(random: &mut Random, n: usize) -> RowCounts {
    let values = |random: &mut Random, count: usize, most: u64| {
        let kind = Values::choose(random, most);
        (0..count).map(|_| kind.draw(random, most)).collect()
    };
    let rows = values(random, n, MOST_ROWS);
    let divisors = values(random, n - 1, MOST_DIVISOR);
    RowCounts { rows, divisors }
}
