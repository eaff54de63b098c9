//! All single damages of a query's file, of either form, and files that no query has.

use crate::encode::{self, Field, Meaning};
use crate::query::Query;
use crate::stated::Stated;

/// Every cut of the file, the empty one first.
pub fn every_cut(stated: &Stated) -> impl Iterator<Item = Vec<u8>> {
    let file = encode::encode_stated(stated);
    (0..file.len()).map(move |length| file[..length].to_vec())
}

/// Every field with values just and far outside its range, every count with wrong ones.
pub fn every_field_wrong(stated: &Stated) -> Vec<Vec<u8>> {
    let (file, fields) = encode::encode_with_fields(stated);
    let mut files = Vec::new();
    for field in &fields {
        for value in wrong_values(&file, field) {
            let mut wrong = file.clone();
            field.write(&mut wrong, value);
            files.push(wrong);
        }
    }
    files
}

/// Every pair of ends for each join: itself, one already there, one that does not reach.
pub fn every_join_turned(stated: &Stated) -> Vec<Vec<u8>> {
    let query = &stated.query;
    let n = query.relations.len();
    let file = encode::encode_stated(stated);
    let mut files = Vec::new();
    for join in 0..query.joins().len() {
        for (first, second) in (0..n).flat_map(|first| (0..n).map(move |second| (first, second))) {
            let mut turned = file.clone();
            turn_join(&mut turned, query, join, first, second);
            files.push(turned);
        }
    }
    files
}

/// Files that no query has: ten relations, nine sites, none of either, long ones.
pub fn odd_files(stated: &Stated) -> Vec<Vec<u8>> {
    let file = encode::encode_stated(stated);
    let with_bytes = |count: usize, byte: u8| {
        let mut longer = file.clone();
        longer.resize(file.len() + count, byte);
        longer
    };
    let mut files = vec![ten_relations(), vec![0; 5_000], vec![255; 5_000], vec![1; 1_674]];
    files.extend(
        [1, 2, 8, 1_567, 1_568, 1_674, 4_096, 65_536, 200_000].map(|count| with_bytes(count, 0)),
    );
    files.extend((0..=255).map(|byte| vec![byte]));
    files
}

/// A file with ten relations, right in every other way.
fn ten_relations() -> Vec<u8> {
    let subqueries: u16 = 55;
    let mut file = vec![1, 1, 0, 0, 0, 0, 0, 0, 0, 0];
    file.push(10);
    file.extend([0, 0].repeat(10));
    file.push(9);
    file.extend((0..9).flat_map(|first| [first, first + 1]));
    file.extend(subqueries.to_le_bytes());
    file.extend(vec![0; 4 * usize::from(subqueries)]);
    file.extend([0, 1, 0]);
    file
}

/// What a field may not say: values just and far outside its range, wrong counts.
pub fn wrong_values(file: &[u8], field: &Field) -> Vec<u64> {
    let most = u64::MAX >> (64 - 8 * field.width);
    let mut values = match field.meaning {
        Meaning::Count => {
            let count = field.read(file);
            vec![0, count.wrapping_sub(1) & most, count + 1, 8, 9, 10, 128, most]
        }
        Meaning::Within { least, most: limit } => {
            let mut values = vec![limit + 1, limit + 128, (limit + 1) << 8, 1 << 31, most];
            values.extend(least.checked_sub(1));
            values
        }
    };
    values.retain(|&value| value <= most && value != field.read(file));
    values.sort();
    values.dedup();
    values
}

/// Gives a join other ends, where it stands in the file of either form.
pub fn turn_join(file: &mut [u8], query: &Query, join: usize, first: usize, second: usize) {
    let joins_at = 1 + 9 * query.sites.len() + 1 + 2 * query.relations.len() + 1;
    file[joins_at + 2 * join] = first as u8;
    file[joins_at + 2 * join + 1] = second as u8;
}
