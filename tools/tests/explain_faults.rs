//! `fanchuki explain` where the proved program gives wrong answers.

mod common;

use common::stand_in::{run_by_answers, CALLS_OF_Q};
use common::{example, held_to};

const NOT_THE_CHEAPEST: &str = "\
load 2 3
solved 24 11 3 0501000201010103000200
cells OK
check 24
link
solved 21 9 3 040100010102000300
cells OK
link
";

#[test]
fn a_sum_that_is_not_the_proved_cost_is_a_fault() {
    let told = |answers: &str| {
        let ended = run_by_answers(answers, &["explain", &example("q.txt")]);
        assert_eq!((ended.code, ended.text()), (3, String::new()), "{}", ended.said);
        ended.said
    };
    assert_eq!(
        told(&CALLS_OF_Q.replace("solved 21", "solved 22")),
        "fanchuki: the proved cost is 22, and the prices of the plan's steps come to 21\n"
    );
    assert_eq!(
        told(&CALLS_OF_Q.replace("check 21", "check 20")),
        "fanchuki: the proved check of the plan comes to 20, and the proved cost is 21\n"
    );
    assert_eq!(
        told(&CALLS_OF_Q.replace("check 21", "refused 10 2")),
        "fanchuki: the proved check refuses the proved plan: refused 10\n"
    );
    // A relation that is not there.
    assert_eq!(
        told(&CALLS_OF_Q.replace("0401000101", "0401000102")),
        "fanchuki: the proved cost is 21, and the tool refuses the plan with 8\n"
    );
    // Not the cheapest at first: relation 0 goes to site 1, and the result back.
    assert_eq!(
        told(NOT_THE_CHEAPEST),
        "fanchuki: with less allowed the proved cost is 21, and before it was 24\n"
    );
}

/// The stand-in's right answers are taken, so the faults above come of what was changed.
#[test]
fn the_stand_in_is_taken() {
    let ended = run_by_answers(CALLS_OF_Q, &["explain", &example("q.txt")]);
    assert_eq!((ended.code, ended.said.as_str()), (0, ""));
    held_to("explain-q.txt", &ended.text());
}
