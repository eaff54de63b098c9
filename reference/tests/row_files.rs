//! The bytes of a file with rows, and the query that load from rows puts in force.

use reference::decode::decode;
use reference::encode::{encode, encode_stated};
use reference::generate::queries::Extent;
use reference::generate::rows;
use reference::limits::MOST_SIZE;
use reference::pinned;
use reference::pinned_rows;
use reference::random::Random;
use reference::rows::RowCounts;
use reference::stated::{Form, Stated};

/// The longest file with rows: nine relations, eight sites.
const LONGEST: usize = 73 + 19 + 17 + 37 + 33 + 505 + 2;

#[test]
fn q_from_rows_is_q() {
    let file = encode_stated(&pinned_rows::q());
    assert_eq!(file.len(), 107);
    assert_eq!(&file[36..50], [2, 10, 0, 0, 0, 4, 0, 0, 0, 1, 16, 0, 0, 0]);
    assert_eq!(decode(&file, Form::Rows).unwrap().query, pinned::q());
}

#[test]
fn one_relation_has_a_lone_0_for_divisors() {
    let file = encode_stated(&pinned_rows::alone());
    let (sites, relations) = ([1, 0, 0, 0, 0, 0, 0, 0, 0, 0], [1, 0, 1]);
    let (joins, rows, divisors, lines) = ([0], [1, 7, 0, 0, 0], [0], [0]);
    let parts = [&sites[..], &relations, &joins, &rows, &divisors, &lines, &[1, 0]];
    assert_eq!(file, parts.concat());
    assert_eq!(decode(&file, Form::Rows).unwrap().query, pinned::alone());
}

#[test]
fn the_longest_file_with_rows() {
    let counts = RowCounts { rows: vec![1; 9], divisors: vec![1; 8] };
    let star = Stated::from_rows(pinned::uniform(pinned::star(9), 8), counts);
    assert_eq!(encode_stated(&star).len(), LONGEST);
    assert_eq!(decode(&encode_stated(&star), Form::Rows), Ok(star));
}

/// The query in force is the one that the ordinary load makes of the file with these sizes.
#[test]
fn files_with_rows_are_read_as_they_were_written() {
    let mut cut = 0;
    for case in 0..1_000 {
        let stated = rows::stated(&mut Random::for_case(33, case), &Extent::full(), Form::Rows);
        let ordinary = decode(&encode(&stated.query), Form::Sizes).unwrap();
        assert_eq!(ordinary.query, stated.query);
        assert!(stated.query.sizes.iter().all(|size| (1..=MOST_SIZE).contains(&size.0)));
        cut += usize::from(stated.query.sizes.iter().any(|size| size.0 == MOST_SIZE));
        assert_eq!(decode(&encode_stated(&stated), Form::Rows), Ok(stated));
    }
    assert!(cut > 200, "{cut}");
}
