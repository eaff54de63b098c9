//! Solve alone, as lines of the program `calls`: the length of its output, its cells, and
//! the query that it answers by.

use reference::answers;
use reference::encode::encode;
use reference::limits::LONGEST_PLAN;
use reference::pinned_solves;

/// Each in an output of just the plan's length.
const Q: [&str; 2] = ["solved 21 9 3 040100010102000300", "cells OK"];
const ROW_5: [&str; 2] = ["solved 23 11 3 0501000101020202000300", "cells OK"];
const NO_ROUTE: [&str; 3] = ["no-route 3", "cells OK", "output OK"];
const FEW_CELLS: [&str; 3] = ["refused 21", "cells OK", "output OK"];
const SHORT_OUTPUT: [&str; 3] = ["refused 23", "cells OK", "output OK"];

/// The longest plan: every relation and every joined result takes seven sends, down from site
/// to site and from 0 round to 7. Relations 0 and 1 start at site 7; join e is done at site e,
/// and the relation after it starts there.
fn longest() -> String {
    let sends = |from: usize| -> String {
        (1..8).map(|down| format!("02{:02x}", (from + 8 - down) % 8)).collect()
    };
    let mut plan = format!("0100{}", sends(7));
    for join in 0..8 {
        plan += &format!("01{:02x}{}", join + 1, sends((join + 7) % 8));
        plan += &format!("03{join:02x}{}", sends(join));
    }
    format!("solved 109213 273 960 88{plan}")
}

#[test]
fn the_longest_plan_is_that_of_the_example() {
    let file = std::fs::read("../examples/longest-plan.query").unwrap();
    assert_eq!(encode(&pinned_solves::longest_plan()), file);
}

#[test]
fn an_output_is_long_enough_or_too_short() {
    let q_and_a_byte = ["solved 21 9 3 04010001010200030058", "cells OK"];
    let row_5_and_a_byte = ["solved 23 11 3 0501000101020202000300a2", "cells OK"];
    let longest = longest();
    let longest_and_a_byte = format!("{longest}{:02x}", answers::lent_byte(LONGEST_PLAN));
    let expected = [
        vec!["load 2 3"],
        SHORT_OUTPUT.repeat(9),
        Q.to_vec(),
        q_and_a_byte.to_vec(),
        vec!["load 2 3"],
        SHORT_OUTPUT.repeat(11),
        ROW_5.to_vec(),
        row_5_and_a_byte.to_vec(),
        vec!["load 2 3"],
        NO_ROUTE.repeat(13),
        vec!["load 9 45"],
        SHORT_OUTPUT.to_vec(),
        vec![&longest, "cells OK"],
        vec![&longest_and_a_byte, "cells OK"],
    ];
    assert_eq!(answers::lines(&pinned_solves::output_lengths()), expected.concat());
}

/// Each number of cells with 9, 8 and 0 bytes: 21 comes before 23 and before no route.
#[test]
fn cells_are_judged_before_the_output() {
    let enough_for_q = [&Q[..], &SHORT_OUTPUT, &SHORT_OUTPUT].concat();
    let (few, enough) = (pinned_solves::FEW.len(), pinned_solves::ENOUGH.len());
    let expected = [
        vec!["load 2 3"],
        FEW_CELLS.repeat(few * 3),
        enough_for_q.repeat(enough),
        vec!["load 2 3"],
        FEW_CELLS.repeat(few * 3),
        NO_ROUTE.repeat(enough * 3),
    ];
    assert_eq!(answers::lines(&pinned_solves::cells()), expected.concat());
}

/// Free chains and stars of nine at eight sites: of all plans the lowest site and the lowest
/// join are taken, and what is joined at site 0 is sent to site 7.
const CHAIN: &str = "010001010102010301040105010601070108\
    03070306030503040303030203010300\
    0207";
const STAR: &str = "0100\
    01080307010703060106030501050304010403030103030201020301\
    01010300\
    0207";

/// Behind a plan of 18 steps the output is as it was.
fn nine(trials: u64, steps: &str) -> String {
    format!("solved 0 37 {trials} 12{steps}{}", rest(37))
}

/// What stood in a lent output of the longest plan's length, from this place on.
fn rest(from: usize) -> String {
    (from..LONGEST_PLAN).map(|place| format!("{:02x}", answers::lent_byte(place))).collect()
}

/// A cell less than is needed, as many, one more, and 4,096.
#[test]
fn a_cell_for_each_subquery_and_site() {
    let alone = |sites: usize| match sites {
        1 => ("load 1 1".to_string(), 3, "solved 0 3 0 010100".to_string()),
        _ => ("load 1 1".to_string(), 5, format!("solved 0 5 0 02010002{:02x}", sites - 1)),
    };
    let alone = (1..=8).map(alone).map(|(load, length, plan)| (load, plan + &rest(length)));
    let of_nine = [("load 9 45", nine(960, CHAIN)), ("load 9 264", nine(8_192, STAR))];
    let of_nine = of_nine.map(|(load, solved)| (load.to_string(), solved));
    let mut expected: Vec<String> = Vec::new();
    for (load, solved) in alone.chain(of_nine) {
        expected.push(load);
        expected.extend(FEW_CELLS.map(String::from));
        let solved = [solved, "cells OK".to_string()];
        expected.extend([&solved[..], &solved, &solved].concat());
    }
    assert_eq!(answers::lines(&pinned_solves::needs()), expected);
}

#[test]
fn the_need_is_that_of_the_query_in_force() {
    let chain = [&format!("solved 0 37 960 12{CHAIN}"), "cells OK"];
    let expected: [&[&str]; 19] = [
        &["load 9 45"],
        &FEW_CELLS,
        &FEW_CELLS,
        &chain,
        &["load 2 3"],
        &Q,
        &FEW_CELLS,
        &["refused 1"],
        &["room 45 360 960"],
        &Q,
        &["link"],
        &FEW_CELLS,
        &ROW_5,
        &["load 9 45"],
        &FEW_CELLS,
        &["refused 1"],
        &["room 3 9 3"],
        &FEW_CELLS,
        &chain,
    ];
    assert_eq!(answers::lines(&pinned_solves::need_in_force()), expected.concat());
}

#[test]
fn each_solve_answers_by_the_query_in_force() {
    let expected: [&[&str]; 18] = [
        &["load 2 3"],
        &Q,
        &["check 21"],
        &["refused 7"],
        &Q,
        &["refused 1"],
        &Q,
        &FEW_CELLS,
        &SHORT_OUTPUT,
        &Q,
        &["link"],
        &SHORT_OUTPUT,
        &ROW_5,
        &["refused 10 2"],
        &["link"],
        &NO_ROUTE,
        &["load 2 3"],
        &Q,
    ];
    assert_eq!(answers::lines(&pinned_solves::between_two_solves()), expected.concat());
}
