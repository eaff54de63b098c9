//! From a query to the bytes of its file in either form, with a map of the fields for those
//! who damage files.

use crate::limits::{MOST_DIVISOR, MOST_FIXED, MOST_RATE, MOST_ROWS, MOST_SIZE};
use crate::query::Query;
use crate::rows::RowCounts;
use crate::stated::Stated;

/// What a field says.
#[derive(Clone, Copy, Debug, PartialEq, Eq)]
pub enum Meaning {
    /// A section's count.
    Count,
    /// A value between these limits.
    Within { least: u64, most: u64 },
}

/// Where a field stands in the file.
#[derive(Clone, Copy, Debug, PartialEq, Eq)]
pub struct Field {
    pub offset: usize,
    pub width: usize,
    pub meaning: Meaning,
}

impl Field {
    pub fn write(&self, file: &mut [u8], value: u64) {
        let bytes = value.to_le_bytes();
        file[self.offset..self.offset + self.width].copy_from_slice(&bytes[..self.width]);
    }

    pub fn read(&self, file: &[u8]) -> u64 {
        let mut bytes = [0; 8];
        bytes[..self.width].copy_from_slice(&file[self.offset..self.offset + self.width]);
        u64::from_le_bytes(bytes)
    }
}

/// The ordinary file of the query.
pub fn encode(query: &Query) -> Vec<u8> {
    write(query, None).file
}

/// The file of the form in which the query is stated.
pub fn encode_stated(stated: &Stated) -> Vec<u8> {
    encode_with_fields(stated).0
}

/// The file and all its fields in reading order.
pub fn encode_with_fields(stated: &Stated) -> (Vec<u8>, Vec<Field>) {
    let writer = write(&stated.query, stated.counts.as_ref());
    (writer.file, writer.fields)
}

fn write(query: &Query, counts: Option<&RowCounts>) -> Writer {
    let mut writer = Writer { file: Vec::new(), fields: Vec::new() };
    let last_site = query.sites.len() as u64 - 1;
    let last_relation = query.relations.len() as u64 - 1;

    writer.count(1, query.sites.len());
    for site in &query.sites {
        writer.value(1, u64::from(site.may_join), 1);
        writer.value(4, site.fixed.0, MOST_FIXED);
        writer.value(4, site.rate.0, MOST_RATE);
    }
    writer.count(1, query.relations.len());
    for relation in &query.relations {
        writer.value(1, relation.home as u64, last_site);
        writer.value(1, u64::from(relation.index), 1);
    }
    writer.count(1, query.joins().len());
    for join in query.joins() {
        writer.value(1, join.first as u64, last_relation);
        writer.value(1, join.second as u64, last_relation);
    }
    match counts {
        None => writer.sizes(query),
        Some(counts) => writer.row_counts(counts),
    }
    writer.count(1, query.lines.len());
    for line in &query.lines {
        writer.value(1, u64::from(line.open), 1);
        writer.value(4, line.fixed.0, MOST_FIXED);
        writer.value(4, line.rate.0, MOST_RATE);
    }
    writer.count(1, 1);
    writer.value(1, query.delivery as u64, last_site);
    writer
}

struct Writer {
    file: Vec<u8>,
    fields: Vec<Field>,
}

impl Writer {
    fn count(&mut self, width: usize, count: usize) {
        self.field(width, count as u64, Meaning::Count);
    }

    fn value(&mut self, width: usize, value: u64, most: u64) {
        self.field(width, value, Meaning::Within { least: 0, most });
    }

    fn sizes(&mut self, query: &Query) {
        self.count(2, query.sizes.len());
        for size in &query.sizes {
            self.value(4, size.0, MOST_SIZE);
        }
    }

    fn row_counts(&mut self, counts: &RowCounts) {
        for (values, most) in [(&counts.rows, MOST_ROWS), (&counts.divisors, MOST_DIVISOR)] {
            self.count(1, values.len());
            for &value in values {
                self.field(4, value, Meaning::Within { least: 1, most });
            }
        }
    }

    fn field(&mut self, width: usize, value: u64, meaning: Meaning) {
        let field = Field { offset: self.file.len(), width, meaning };
        self.file.resize(field.offset + width, 0);
        field.write(&mut self.file, value);
        self.fields.push(field);
    }
}
