//! `fanchuki explain` where no plan is allowed.

mod common;

use common::run_on;
use common::texts::q;

fn no_route(text: &str, trials: u64, reasons: &[&str]) {
    let ended = run_on(&["explain", "-"], text.as_bytes());
    assert_eq!((ended.code, ended.said.as_str()), (1, ""));
    let expected = format!("no route trials {trials}\n{}\n", reasons.join("\n"));
    assert_eq!(ended.text(), expected);
}

/// Q with these changes of its text, and lines of its own behind it.
fn q_with(changes: &[(&str, &str)], lines: &str) -> String {
    changes.iter().fold(q(), |text, (from, to)| text.replace(from, to)) + lines
}

const Q_SITES: &str = "sites 0 to 2 may join, fixed 2, rate 1";
/// Site 0 may not join.
const OTHERS_JOIN: &str =
    "site 0 may not join, fixed 2, rate 1\nsites 1 to 2 may join, fixed 2, rate 1";
const NONE_TO_0: &str =
    "line 1 to 0 closed, fixed 1, rate 1\nline 2 to 0 closed, fixed 1, rate 1\n";
const NONE_FROM_0: &str =
    "line 0 to 1 closed, fixed 1, rate 1\nline 0 to 2 closed, fixed 1, rate 1\n";

#[test]
fn one_relation() {
    let alone = "sites 0 to 2 may join, fixed 2, rate 1\nrelation 0 at site 0\nsize of 0 is 10\n\
                 every line closed, fixed 1, rate 1\nline 0 to 2 open, fixed 1, rate 1\n\
                 delivery to site 1\n";
    let reason = "relation 0 stands at site 0, and no open lines lead from there to site 1";
    no_route(alone, 0, &[reason]);
    let by_way_of_2 = format!("{alone}line 2 to 1 open, fixed 1, rate 1\n");
    assert_eq!(run_on(&["explain", "-"], by_way_of_2.as_bytes()).code, 0);
}

#[test]
fn the_result_stays_away() {
    no_route(&q().replace("may join", "may not join"), 3, &["no site may join"]);
    no_route(
        &q_with(&[(Q_SITES, OTHERS_JOIN)], NONE_TO_0),
        3,
        &["the result cannot come to site 0: it may not join, and no open lines lead there from a \
           site that may"],
    );
}

#[test]
fn a_relation_stays_away() {
    no_route(
        &q_with(&[(Q_SITES, OTHERS_JOIN)], NONE_FROM_0),
        3,
        &["relation 0 cannot be joined: its home, site 0, may not join, and no open lines lead \
           from there to a site that may"],
    );
    no_route(
        &q_with(&[], NONE_TO_0),
        3,
        &["relation 1 cannot get from its home, site 1, to site 0, alone or joined: no open lines \
           lead there"],
    );
    let only_1_and_2_join =
        "site 0 may not join, fixed 2, rate 1\nsites 1 to 2 may join, fixed 2, \
                             rate 1\nsite 3 may not join, fixed 0, rate 0";
    let lines = "line 0 to 2 closed, fixed 1, rate 1\nline 3 to 2 closed, fixed 1, rate 1\n\
                 line 1 to 0 closed, fixed 1, rate 1\nline 1 to 2 closed, fixed 1, rate 1\n\
                 line 1 to 3 closed, fixed 1, rate 1\n";
    let aside = [
        (Q_SITES, only_1_and_2_join),
        ("relation 1 at site 1", "relation 1 at site 2"),
        ("delivery to site 0", "delivery to site 3"),
    ];
    let reason = "relation 0 can be joined only where no open lines lead on to site 3";
    no_route(&q_with(&aside, lines), 4, &[reason]);
}

/// Each relation can be joined at one site, and can get to the query site, but they never meet.
#[test]
fn the_relations_never_meet() {
    let apart = "sites 0 to 1 may not join, fixed 0, rate 0
sites 2 to 3 may join, fixed 0, rate 0
site 4 may not join, fixed 0, rate 0
relation 0 at site 0
relation 1 at site 1
join 0 links 0 and 1
size of 0 is 10
size of 1 is 4
size of 0 1 is 3
every line closed, fixed 1, rate 1
line 0 to 2 open, fixed 1, rate 1
line 1 to 3 open, fixed 1, rate 1
line 2 to 4 open, fixed 1, rate 1
line 3 to 4 open, fixed 1, rate 1
delivery to site 4
";
    no_route(
        apart,
        5,
        &["the relations do not all come together: no site that may join, and from which open \
           lines lead to site 4, is reached from every home"],
    );
}
