//! The calls on a standing state, as lines of the program `calls`.

use reference::answers;
use reference::pinned;
use reference::pinned_calls::{self, SOLVE};
use reference::pinned_indexes;
use reference::pinned_rooms::{self, room};
use reference::pinned_route_calls;
use reference::pinned_row_calls::{self, load_from_rows};
use reference::pinned_rows;
use reference::pinned_solves;
use reference::script::Call;

fn list(number: usize) -> Vec<String> {
    answers::lines(&pinned_calls::lists()[number])
}

/// Q's plan in a lent output of so many bytes.
fn solved(bytes: usize) -> String {
    let rest: String = (9..bytes).map(|place| format!("{:02x}", (place * 37 + 11) % 256)).collect();
    format!("solved 21 9 3 040100010102000300{rest}")
}

#[test]
fn nothing_loaded_comes_first() {
    let solve = ["refused 20", "cells OK", "output OK"];
    let others = ["refused 20", "refused 20", "refused 20", "refused 1"];
    let expected = [&solve[..], &solve, &solve, &solve, &others, &solve].concat();
    assert_eq!(list(0), expected);
}

#[test]
fn a_refusal_leaves_the_query() {
    let (into_9, into_10, into_4096) = (solved(9), solved(10), solved(4_096));
    let expected = [
        "load 2 3",
        "refused 21",
        "cells OK",
        "output OK",
        &into_9,
        "cells OK",
        "refused 1",
        "refused 5",
        &into_9,
        "cells OK",
        "refused 21",
        "cells OK",
        "output OK",
        "refused 6",
        "refused 3",
        &into_10,
        "cells OK",
        "refused 23",
        "cells OK",
        "output OK",
        "link",
        &into_9,
        "cells OK",
        &into_4096,
        "cells OK",
        &into_4096,
        "cells OK",
        "load 2 3",
        &into_9,
        "cells OK",
    ];
    assert_eq!(list(1), expected);
}

#[test]
fn links_take_wide_arguments() {
    let lines = list(2);
    assert_eq!(lines[0], "load 2 3");
    assert!(lines[1..17].iter().all(|line| line == "refused 6"));
    assert!(lines[17..28].iter().all(|line| line == "refused 3"));
    let costs = lines[28..].iter().filter(|line| line.starts_with("solved"));
    let costs: Vec<&str> = costs.map(|line| line.split(' ').nth(1).unwrap()).collect();
    assert_eq!(costs, ["21", "21", "23", "23", "19"]);
}

#[test]
fn no_route_leaves_the_output() {
    let expected = [
        "load 2 3",
        &solved(9),
        "cells OK",
        "link",
        "solved 23 11 3 0501000101020202000300",
        "cells OK",
        "link",
        "no-route 3",
        "cells OK",
        "output OK",
        "no-route 3",
        "cells OK",
        "output OK",
        "refused 10 2",
        "link",
        "solved 23 11 3 0501000101020202000300",
        "cells OK",
    ];
    assert_eq!(list(3), expected);
}

#[test]
fn check_tells_the_place() {
    let expected = [
        "check 21",
        "check 21",
        "check 24",
        "check 26",
        "check 23",
        "check 27",
        "refused 7",
        "refused 7",
        "refused 7",
        "refused 7",
        "refused 7",
        "refused 7",
        "refused 7",
        "refused 7",
        "refused 8 0",
        "refused 8 0",
        "refused 8 0",
        "refused 8 0",
        "refused 8 1",
        "refused 8 0",
        "refused 8 0",
        "refused 8 2",
        "refused 9 1",
        "refused 9 4",
        "refused 10 0",
        "refused 10 1",
        "refused 10 2",
        "refused 11 0",
        "refused 11 1",
        "refused 11 2",
        "refused 12 2",
        "refused 12 1",
        "refused 12 5",
        "refused 12 4",
        "refused 11 2",
    ];
    assert_eq!(list(4)[1..=expected.len()], expected);
}

#[test]
fn one_relation_at_one_site() {
    let expected = [
        "load 1 1",
        "refused 21",
        "cells OK",
        "output OK",
        "solved 0 3 0 010100",
        "cells OK",
        "refused 23",
        "cells OK",
        "output OK",
        "check 0",
        "refused 8 0",
        "refused 10 1",
        "refused 8 1",
        "refused 6",
        "refused 6",
        "solved 0 3 0 0101007a",
        "cells OK",
    ];
    assert_eq!(list(5), expected);
}

#[test]
fn the_dearest_plan() {
    let lines = list(6);
    assert_eq!(lines[..4], ["load 9 45", "check 38875127000000", "refused 7", "refused 7"]);
    assert!(lines[4].starts_with("solved 24000008000000 35 360 1101000101"), "{}", lines[4]);
}

#[test]
fn parcels_are_started() {
    let answers: Vec<String> = list(7).into_iter().filter(|line| !line.ends_with("OK")).collect();
    for (answers, (size, parcels)) in answers.chunks_exact(9).zip(pinned::PARCELS) {
        let (sent, rate_only) = (3 + 5 * parcels, 1_000 * parcels);
        let both = 2 + 3 * size + sent;
        let expected = [
            "load 1 1".to_string(),
            format!("solved {sent} 5 0 0201000201"),
            format!("check {sent}"),
            "link".to_string(),
            format!("solved {rate_only} 5 0 0201000201"),
            format!("check {rate_only}"),
            "load 2 3".to_string(),
            format!("solved {both} 9 2 040100010103000201"),
            format!("check {both}"),
        ];
        assert_eq!(answers, expected);
    }
    assert_eq!(answers.len(), 9 * pinned::PARCELS.len());
}

#[test]
fn two_indexes() {
    let answers: Vec<String> = list(8).into_iter().filter(|line| !line.ends_with("OK")).collect();
    let worked = pinned_indexes::worked();
    let (solved, checked) = answers.split_at(3 * worked.len());
    for (answers, worked) in solved.chunks_exact(3).zip(worked) {
        let solved = format!("solved {} {} ", worked.cost, worked.plan.len());
        assert!(answers[1].starts_with(&solved), "{}: {}", worked.what, answers[1]);
        assert_eq!(answers[2], format!("check {}", worked.cost), "{}", worked.what);
    }
    for (answers, worked) in checked.chunks_exact(3).zip(pinned_indexes::at_one_home()) {
        assert_eq!(answers[1], format!("check {}", worked.cost), "{}", worked.what);
    }
    // Sizes 10 and 4 joined away from home: sent for 3 and 2, both read, the result sent for 2.
    assert_eq!(checked[..3], ["load 2 3", "check 9", "check 26"]);
}

/// The calls of a script up to where it ends, is cut or has an unknown record.
fn calls_of(mut script: &[u8]) -> Vec<Call> {
    std::iter::from_fn(|| Call::next(&mut script)).collect()
}

#[test]
fn a_script_is_read_as_it_was_written() {
    let lists = pinned_calls::lists().into_iter().chain(pinned_solves::lists());
    let lists = lists.chain(pinned_route_calls::lists());
    for calls in lists.chain(pinned_row_calls::lists()).chain(pinned_rooms::lists()) {
        let script: Vec<u8> = calls.iter().flat_map(|call| call.record()).collect();
        assert_eq!(calls_of(&script), calls);
    }
    assert_eq!(pinned_calls::solve(5_000, 9).record(), [6, 0x88, 0x13, 0, 0, 9, 0, 0, 0]);
    assert_eq!(pinned_calls::load_file(vec![3; 258]).record()[..4], [1, 2, 1, 3]);
    assert_eq!(pinned_row_calls::rows_file(vec![3; 258]).record()[..4], [7, 2, 1, 3]);
    let (n, s) = ([3, 0, 0, 0, 0, 0, 0, 1], [2, 1, 0, 0, 0, 0, 0, 0]);
    let record = [&[8][..], &n, &s, &[4, 0], &[0, 1, 1, 2]].concat();
    assert_eq!(room(3 + (1 << 56), 258, &[0, 1, 1, 2]).record(), record);
    assert_eq!(room(1, 1, &[3; 258]).record()[17..20], [2, 1, 3]);
}

#[test]
fn a_cut_record_ends_the_run() {
    let loads = [pinned_calls::load(&pinned::q()), load_from_rows(&pinned_rows::q())];
    let others = [&SOLVE, &room(3, 2, &[0, 1, 1, 2])];
    for record in loads.iter().chain(others).map(Call::record) {
        for length in 0..record.len() {
            assert_eq!(calls_of(&record[..length]), []);
        }
    }
}

/// 3, 4 and 9 are kinds as unknown as 0 and 255, whatever stands behind them.
#[test]
fn an_unknown_record_ends_the_run() {
    for kind in [0, 3, 4, 9, 255] {
        let script = [SOLVE.record(), vec![kind, 0, 16, 0, 0], SOLVE.record()].concat();
        assert_eq!(calls_of(&script), [SOLVE], "{kind}");
    }
}
