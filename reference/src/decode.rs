//! From the bytes of a file of either form to the query that it states, or the first refusal
//! in reading order.

use crate::limits::{
    MOST_DIVISOR, MOST_FIXED, MOST_RATE, MOST_RELATIONS, MOST_ROWS, MOST_SITES, MOST_SIZE,
};
use crate::query::{Line, Query, Relation, Site};
use crate::refusal::Refusal;
use crate::rows::RowCounts;
use crate::sets;
use crate::stated::{Form, Stated};
use crate::tree::{self, Join};
use crate::units::{Bytes, Charge, Rate};

pub fn decode(file: &[u8], form: Form) -> Result<Stated, Refusal> {
    let mut reader = Reader { rest: file };

    let s = reader.count(1, 1, MOST_SITES)?;
    let sites = reader.each(s, Reader::site)?;

    let n = reader.count(1, 1, MOST_RELATIONS)?;
    let relations = reader.each(n, |reader| reader.relation(s))?;

    let n_joins = reader.count(1, n - 1, n - 1)?;
    let joins = reader.each(n_joins, |reader| reader.join(n))?;
    if tree::grown(&joins, 0, sets::everything(n), None) != sets::everything(n) {
        return Err(Refusal::NotReached);
    }

    let (sizes, counts) = match form {
        Form::Sizes => (reader.sizes(tree::subqueries(&joins, n).len())?, None),
        Form::Rows => {
            let counts = reader.row_counts(n)?;
            (counts.sizes(&joins), Some(counts))
        }
    };

    let n_lines = reader.count(1, s * (s - 1), s * (s - 1))?;
    let lines = reader.each(n_lines, Reader::line)?;

    reader.count(1, 1, 1)?;
    let delivery = reader.number(1, s - 1)?;

    if !reader.rest.is_empty() {
        return Err(Refusal::BytesFollow);
    }
    let query = Query::new(sites, relations, joins, sizes, lines, delivery);
    Ok(Stated { query, counts })
}

/// The part of the file not yet read.
struct Reader<'file> {
    rest: &'file [u8],
}

impl Reader<'_> {
    /// The next field, little-endian; whole before anything is said about it.
    fn field(&mut self, width: usize) -> Result<u64, Refusal> {
        if self.rest.len() < width {
            return Err(Refusal::Cut);
        }
        let (field, rest) = self.rest.split_at(width);
        self.rest = rest;
        Ok(field.iter().rev().fold(0, |value, &byte| value << 8 | u64::from(byte)))
    }

    fn count(&mut self, width: usize, least: usize, most: usize) -> Result<usize, Refusal> {
        let count = self.field(width)? as usize;
        if count < least || count > most {
            return Err(Refusal::WrongCount);
        }
        Ok(count)
    }

    fn within(&mut self, width: usize, least: u64, most: u64) -> Result<u64, Refusal> {
        let value = self.field(width)?;
        if value < least || value > most {
            return Err(Refusal::OutOfRange);
        }
        Ok(value)
    }

    fn number(&mut self, width: usize, most: usize) -> Result<usize, Refusal> {
        Ok(self.within(width, 0, most as u64)? as usize)
    }

    fn flag(&mut self) -> Result<bool, Refusal> {
        Ok(self.within(1, 0, 1)? == 1)
    }

    fn amount(&mut self, most: u64) -> Result<u64, Refusal> {
        self.within(4, 0, most)
    }

    fn each<T>(
        &mut self,
        count: usize,
        mut read: impl FnMut(&mut Self) -> Result<T, Refusal>,
    ) -> Result<Vec<T>, Refusal> {
        (0..count).map(|_| read(self)).collect()
    }

    fn site(&mut self) -> Result<Site, Refusal> {
        let may_join = self.flag()?;
        let fixed = Charge(self.amount(MOST_FIXED)?);
        let rate = Rate(self.amount(MOST_RATE)?);
        Ok(Site { may_join, fixed, rate })
    }

    fn relation(&mut self, sites: usize) -> Result<Relation, Refusal> {
        let home = self.number(1, sites - 1)?;
        let index = self.flag()?;
        Ok(Relation { home, index })
    }

    fn join(&mut self, relations: usize) -> Result<Join, Refusal> {
        let first = self.number(1, relations - 1)?;
        let second = self.number(1, relations - 1)?;
        Ok(Join { first, second })
    }

    fn sizes(&mut self, subqueries: usize) -> Result<Vec<Bytes>, Refusal> {
        let count = self.count(2, subqueries, subqueries)?;
        self.each(count, |reader| reader.amount(MOST_SIZE).map(Bytes))
    }

    fn row_counts(&mut self, n: usize) -> Result<RowCounts, Refusal> {
        let n_rows = self.count(1, n, n)?;
        let rows = self.each(n_rows, |reader| reader.within(4, 1, MOST_ROWS))?;
        let n_divisors = self.count(1, n - 1, n - 1)?;
        let divisors = self.each(n_divisors, |reader| reader.within(4, 1, MOST_DIVISOR))?;
        Ok(RowCounts { rows, divisors })
    }

    fn line(&mut self) -> Result<Line, Refusal> {
        let open = self.flag()?;
        let fixed = Charge(self.amount(MOST_FIXED)?);
        let rate = Rate(self.amount(MOST_RATE)?);
        Ok(Line { open, fixed, rate })
    }
}
