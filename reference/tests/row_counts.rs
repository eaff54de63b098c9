//! Sizes worked out from row counts, and the calls on a query that has them.

use reference::answers;
use reference::pinned_row_calls;
use reference::pinned_rows;
use reference::script::Call;

const Q: [&str; 2] = ["solved 21 9 3 040100010102000300", "cells OK"];
/// Q with the line from 1 to 0 closed.
const ROW_5: [&str; 2] = ["solved 23 11 3 0501000101020202000300", "cells OK"];
const NOTHING: [&str; 3] = ["refused 20", "cells OK", "output OK"];

/// The lines, with each plan's output cut to the plan.
fn lines(calls: &[Call]) -> Vec<String> {
    let cut = |line: String| match line.split(' ').collect::<Vec<_>>()[..] {
        ["solved", cost, length, trials, output] => {
            let plan = &output[..2 * length.parse::<usize>().unwrap()];
            format!("solved {cost} {length} {trials} {plan}")
        }
        _ => line,
    };
    answers::lines(calls).into_iter().map(cut).collect()
}

#[test]
fn every_size_is_the_one_worked_out_by_hand() {
    for worked in pinned_rows::worked() {
        assert_eq!(worked.stated.query, worked.by_hand(), "{}", worked.what);
    }
}

/// At one site a plan costs what its joins read and make. The chain, by join 1 and join 0:
/// 1,000,000 + 1 + 1 and 1,000,000 + 1 + 1,000.
#[test]
fn each_query_is_solved_by_its_sizes() {
    let expected = [
        ("Q", "load 2 3", Q[0]),
        ("a relation alone", "load 1 1", "solved 0 3 0 010100"),
        ("cut at each step", "load 3 6", "solved 2001003 11 4 0501000101010203010300"),
        // {1, 2}: 1 + 1 + 1; with 0: 3 + 1 + 2; with 3: 2 + 5 + 4.
        (
            "the lowest relation that is adjacent",
            "load 4 10",
            "solved 20 15 10 070100010201010301030001030302",
        ),
        // {0, 1}: 1 + 1 + 1; with 2: 1 + 3 + 3.
        (
            "the lowest relation before the lowest join",
            "load 3 6",
            "solved 10 11 4 0501000101030101020300",
        ),
        // {0, 1}: 1 + 1 + 1; with 2: 1 + 5 + 3.
        ("rounded up at each step", "load 3 6", "solved 12 11 4 0501000101030001020301"),
        // {1, 3}: 4 + 2 + 2; with 0: 3 + 2 + 2; with 2: 2 + 5 + 5; with 4: 7 + 5 + 18.
        (
            "a chain that is numbered otherwise",
            "load 5 15",
            "solved 57 19 20 09010401000103010103020301010203030300",
        ),
    ];
    let lines = lines(&pinned_row_calls::worked_by_hand());
    let all = pinned_rows::worked();
    assert_eq!(lines.len(), 6 * all.len());
    for (lines, worked) in lines.chunks_exact(6).zip(&all) {
        let (from_rows, by_hand) = lines.split_at(3);
        assert_eq!(from_rows, by_hand, "{}", worked.what);
        for (_, load, solved) in expected.iter().filter(|(what, ..)| *what == worked.what) {
            assert_eq!(from_rows, [*load, solved, "cells OK"], "{}", worked.what);
        }
    }
}

#[test]
fn nothing_is_in_force_after_a_refused_load_from_rows() {
    let expected: [&[&str]; 8] = [
        &["refused 1"],
        &NOTHING,
        &["refused 5"],
        &NOTHING,
        // An ordinary file has the number of subqueries where the count of Rows is due.
        &["refused 2"],
        &["refused 20"],
        &["load 2 3"],
        &Q,
    ];
    assert_eq!(lines(&pinned_row_calls::nothing_loaded()), expected.concat());
}

#[test]
fn the_query_before_stays_after_a_refused_load_from_rows() {
    let refused = ["refused 1", "refused 2", "refused 5"];
    let after = refused.map(|line| [&[line][..], &ROW_5].concat()).concat();
    let expected = [&["load 2 3"][..], &ROW_5, &after].concat();
    assert_eq!(lines(&pinned_row_calls::refusals_leave_the_query()), expected.repeat(2));
}

#[test]
fn any_call_may_stand_before_and_after_it() {
    let checked = [&["load 2 3"][..], &Q, &["check 21"]].concat();
    let linked = [&["link"][..], &ROW_5, &["refused 10 2"]].concat();
    let expected = [checked, linked].concat().repeat(6);
    assert_eq!(lines(&pinned_row_calls::before_and_after()), expected);
}
