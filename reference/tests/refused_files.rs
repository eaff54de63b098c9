//! Refusals of a load in their order.

use reference::decode::decode;
use reference::encode::encode;
use reference::generate::files;
use reference::generate::queries::{self, Extent};
use reference::limits::LONGEST_FILE;
use reference::pinned;
use reference::random::Random;
use reference::stated::Form;

fn refused(file: &[u8]) -> Option<u64> {
    decode(file, Form::Sizes).err().map(|refusal| refusal.number())
}

/// Where the sections of Q stand in its file.
const RELATIONS: usize = 28;
const JOINS: usize = 33;
const SIZES: usize = 36;
const LINES: usize = 50;
const DELIVERY: usize = 105;

fn q_with(changes: &[(usize, u8)]) -> Vec<u8> {
    let mut file = encode(&pinned::q());
    for &(place, byte) in changes {
        file[place] = byte;
    }
    file
}

#[test]
fn every_cut_is_1() {
    for (query, length) in [(pinned::q(), 107), (pinned::uniform(pinned::star(9), 8), LONGEST_FILE)]
    {
        let cuts: Vec<Vec<u8>> = files::every_cut(&query.into()).collect();
        assert_eq!(cuts.len(), length);
        assert!(cuts.iter().all(|file| refused(file) == Some(1)));
    }
}

#[test]
fn every_field_wrong_is_refused() {
    for case in 0..20 {
        let query = queries::query(&mut Random::for_case(31, case), &Extent::full());
        let (right, wrong) = (encode(&query), files::every_field_wrong(&query.into()));
        assert!(wrong.iter().all(|file| refused(file).is_some()));
        for (place, byte) in right.iter().enumerate() {
            assert!(wrong.iter().any(|file| file[place] != *byte), "byte {place} is never wrong");
        }
    }
}

#[test]
fn counts() {
    for (place, bytes) in [(0, [0, 9]), (RELATIONS, [0, 10]), (JOINS, [0, 2]), (SIZES, [2, 4])] {
        assert!(bytes.iter().all(|&byte| refused(&q_with(&[(place, byte)])) == Some(2)));
    }
    for (place, bytes) in [(LINES, [5, 7]), (DELIVERY, [0, 2])] {
        assert!(bytes.iter().all(|&byte| refused(&q_with(&[(place, byte)])) == Some(2)));
    }
    assert_eq!(refused(&q_with(&[(SIZES + 1, 1)])), Some(2));
    assert_eq!(refused(&files::odd_files(&pinned::q().into())[0]), Some(2), "ten relations");
}

#[test]
fn joins_that_do_not_reach() {
    for (first, second) in [(0, 0), (1, 1)] {
        let changes = [(JOINS + 1, first), (JOINS + 2, second)];
        let file = q_with(&changes);
        assert_eq!(refused(&file), Some(4));
        // Judged after the last join and before the count of Sizes.
        assert_eq!(refused(&file[..SIZES]), Some(4));
        assert_eq!(refused(&file[..SIZES - 1]), Some(1));
        let wrong_count = q_with(&[changes[0], changes[1], (SIZES, 9)]);
        assert_eq!(refused(&wrong_count), Some(4));
    }
    assert_eq!(refused(&q_with(&[(JOINS + 1, 1), (JOINS + 2, 2)])), Some(3));
}

#[test]
fn a_field_is_whole_before_it_is_judged() {
    // The first end of a join is a field of its own.
    let file = q_with(&[(JOINS + 1, 2)]);
    assert_eq!(refused(&file[..JOINS + 2]), Some(3));
    // An amount of which only bytes that are too high are there.
    let file = q_with(&[(2, 255), (3, 255), (4, 255)]);
    assert_eq!(refused(&file[..5]), Some(1));
    assert_eq!(refused(&file), Some(3));
    // A flag out of range as the last byte there is.
    assert_eq!(refused(&[3, 2]), Some(3));
    assert_eq!(refused(&[]), Some(1));
}

#[test]
fn bytes_behind_delivery() {
    let q = encode(&pinned::q());
    assert_eq!(refused(&[q.clone(), vec![0]].concat()), Some(5));
    let longest = encode(&pinned::uniform(pinned::star(9), 8));
    assert_eq!(longest.len(), LONGEST_FILE);
    assert_eq!(refused(&longest), None);
    assert_eq!(refused(&[longest, vec![0; 100_000]].concat()), Some(5));
    // An earlier fault comes first.
    let late_fault = q_with(&[(DELIVERY + 1, 3)]);
    assert_eq!(refused(&[late_fault, vec![0]].concat()), Some(3));
}

#[test]
fn amounts_of_a_closed_line_are_judged() {
    let line = LINES + 1;
    assert_eq!(refused(&q_with(&[(line, 0)])), None);
    assert_eq!(refused(&q_with(&[(line, 0), (line + 4, 1)])), Some(3));
    assert_eq!(refused(&q_with(&[(line, 2)])), Some(3));
}

#[test]
fn files_are_read_as_they_were_written() {
    for case in 0..1_000 {
        let query = queries::query(&mut Random::for_case(32, case), &Extent::full());
        assert_eq!(decode(&encode(&query), Form::Sizes), Ok(query.into()));
    }
}
