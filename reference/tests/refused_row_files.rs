//! Refusals of a load from rows in their order.

use reference::answers;
use reference::decode::decode;
use reference::encode::{encode, encode_stated};
use reference::generate::files;
use reference::generate::queries::Extent;
use reference::generate::rows;
use reference::limits::{MOST_DIVISOR, MOST_ROWS};
use reference::pinned;
use reference::pinned_row_calls;
use reference::pinned_rows;
use reference::random::Random;
use reference::stated::Form;

fn refused(file: &[u8]) -> Option<u64> {
    decode(file, Form::Rows).err().map(|refusal| refusal.number())
}

/// Where the sections of Q's file with rows stand; the count comes first in each.
const ROWS: usize = 36;
const DIVISORS: usize = 45;
const LINES: usize = 50;

fn q_with(place: usize, bytes: &[u8]) -> Vec<u8> {
    let mut file = encode_stated(&pinned_rows::q());
    file[place..place + bytes.len()].copy_from_slice(bytes);
    file
}

/// Q with this value in the field.
fn q_with_value(place: usize, value: u64) -> Vec<u8> {
    q_with(place, &(value as u32).to_le_bytes())
}

#[test]
fn every_cut_is_1_and_a_byte_more_is_5() {
    for worked in pinned_rows::worked() {
        let cuts: Vec<Vec<u8>> = files::every_cut(&worked.stated).collect();
        assert!(cuts.iter().all(|file| refused(file) == Some(1)), "{}", worked.what);
        let file = encode_stated(&worked.stated);
        assert_eq!(cuts.len(), file.len());
        assert_eq!(refused(&file), None);
        assert_eq!(refused(&[file, vec![0]].concat()), Some(5));
    }
}

#[test]
fn rows_and_divisors_are_1_to_a_million() {
    for (place, most) in
        [(ROWS + 1, MOST_ROWS), (ROWS + 5, MOST_ROWS), (DIVISORS + 1, MOST_DIVISOR)]
    {
        for value in [0, most + 1, 1 << 24, u64::from(u32::MAX)] {
            assert_eq!(refused(&q_with_value(place, value)), Some(3), "{value} at {place}");
        }
        for value in [1, 2, most - 1, most] {
            assert_eq!(refused(&q_with_value(place, value)), None, "{value} at {place}");
        }
    }
}

#[test]
fn counts_are_the_stated_ones() {
    for count in [0, 1, 3, 9, 255] {
        assert_eq!(refused(&q_with(ROWS, &[count])), Some(2), "{count} rows");
    }
    for count in [0, 2, 3, 255] {
        assert_eq!(refused(&q_with(DIVISORS, &[count])), Some(2), "{count} divisors");
    }
    let mut alone = encode_stated(&pinned_rows::alone());
    alone[19] = 1;
    assert_eq!(refused(&alone), Some(2), "one divisor of no join");
    alone.remove(19);
    // The count of Lines, 0, is then taken for it, and that of Delivery, 1, for 0 lines.
    assert_eq!(refused(&alone), Some(2), "no count of Divisors");
}

#[test]
fn faults_come_in_reading_order() {
    // A value is whole before it is judged.
    assert_eq!(refused(&q_with_value(ROWS + 1, 0)[..ROWS + 4]), Some(1));
    assert_eq!(refused(&q_with_value(ROWS + 1, 0)[..ROWS + 5]), Some(3));
    assert_eq!(refused(&q_with_value(DIVISORS + 1, 0)[..DIVISORS + 5]), Some(3));
    // The last row count before the count of Divisors, that before its values.
    let mut file = q_with_value(ROWS + 5, 0);
    file[DIVISORS] = 0;
    assert_eq!(refused(&file), Some(3));
    assert_eq!(refused(&q_with(DIVISORS, &[2, 0, 0, 0, 0])), Some(2));
    assert_eq!(refused(&q_with(DIVISORS + 1, &[0, 0, 0, 0, 5])), Some(3));
    assert_eq!(refused(&q_with(LINES, &[5])), Some(2));
}

/// With the count of Rows wrong, a row count of 0, the file ended: 4. A cut join is 1.
#[test]
fn joins_are_judged_before_the_count_of_rows() {
    let expected = ["refused 4", "refused 4", "refused 4", "refused 4", "refused 1"];
    assert_eq!(answers::lines(&pinned_row_calls::joins_that_do_not_reach()), expected);
}

#[test]
fn every_field_wrong_is_refused() {
    for case in 0..20 {
        let stated = rows::stated(&mut Random::for_case(34, case), &Extent::full(), Form::Rows);
        let (right, wrong) = (encode_stated(&stated), files::every_field_wrong(&stated));
        assert!(wrong.iter().all(|file| refused(file).is_some()));
        for (place, byte) in right.iter().enumerate() {
            assert!(wrong.iter().any(|file| file[place] != *byte), "byte {place} is never wrong");
        }
    }
}

/// The count of Sizes is Q's 3 subqueries, where 2 row counts are due; and 2 with the first
/// row count's low byte, 10, where 3 is due.
#[test]
fn a_file_for_the_other_load() {
    assert_eq!(refused(&encode(&pinned::q())), Some(2));
    let from_rows = decode(&encode_stated(&pinned_rows::q()), Form::Sizes);
    assert_eq!(from_rows.map_err(|refusal| refusal.number()), Err(2));
}
