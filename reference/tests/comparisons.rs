//! The comparing programs themselves: they pass a program that is right and stop at one
//! that nearly works.

use reference::compare::program::Program;
use reference::compare::{alike, apart, calls, own_answers, own_figures, plan};
use reference::listing;
use reference::method::Method;

fn stand_in(path: &str, method: Method) -> Program {
    let mut program = Program::new(path);
    program.arguments.push(method.name().to_string());
    program
}

fn model_plan(method: Method) -> Program {
    stand_in(env!("CARGO_BIN_EXE_model_plan"), method)
}

fn model_calls(method: Method) -> Program {
    stand_in(env!("CARGO_BIN_EXE_model_calls"), method)
}

#[test]
fn plan_passes_when_it_is_right() {
    let tally = plan::compare(&model_plan(Method::Rules), 41, 200).unwrap().unwrap();
    let refused = [1, 2, 3, 4, 5].map(|number| format!("refused {number}"));
    let others = ["plan", "no route", "held to the exhaustive search"].map(String::from);
    for answer in refused.iter().chain(&others) {
        assert!(tally.count(answer) > 0, "{answer}");
    }
}

#[test]
fn plan_fails_when_it_nearly_works() {
    for method in Method::wrong() {
        let mismatch = plan::compare(&model_plan(method), plan::DEFAULT_SEED, plan::DEFAULT_FILES);
        assert!(mismatch.unwrap().is_err(), "{}", method.name());
    }
}

#[test]
fn calls_pass_when_they_are_right() {
    let tally = calls::compare(&model_calls(Method::Rules), 42, 40).unwrap().unwrap();
    let names = ["load", "load from rows", "link", "solve", "check", "room"];
    let answered = names.map(|call| format!("{call}, answered"));
    let others = ["solve, no route", alike::HELD].map(String::from);
    let answered = answered.into_iter().chain(others);
    let of_load = |load| [1, 2, 3, 4, 5].map(|number| format!("{load}, refused {number}"));
    let refused = ["load", "load from rows"].into_iter().flat_map(of_load);
    let refused = refused.chain([20, 6, 3].map(|number| format!("link, refused {number}")));
    let refused = refused.chain([20, 21, 23].map(|number| format!("solve, refused {number}")));
    let refused =
        refused.chain([20, 7, 8, 9, 10, 11, 12].map(|number| format!("check, refused {number}")));
    let refused = refused.chain([2, 3, 4].map(|number| format!("room, refused {number}")));
    for answer in refused.chain(answered) {
        assert!(tally.count(&answer) > 0, "{answer}");
    }
    for (n, trees) in (1..=7).zip([1, 1, 3, 16, 125, 1_296, 16_807]) {
        assert_eq!(tally.count(&own_figures::held("trees", n)), trees);
    }
    assert_eq!(tally.count(&own_figures::held("chains and stars", 9)), 16);
    assert_eq!(tally.count(own_answers::HELD) as u64, own_answers::QUERIES);
}

#[test]
fn calls_fail_when_they_nearly_work() {
    for method in Method::wrong() {
        let mismatch =
            calls::compare(&model_calls(method), calls::DEFAULT_SEED, calls::DEFAULT_LISTS);
        let Err(mismatch) = mismatch.unwrap() else { panic!("{}", method.name()) };
        assert!(mismatch.calls.len() <= 4, "{mismatch}");
    }
}

#[test]
fn each_wrong_method_is_told_apart() {
    for method in Method::wrong() {
        let right = |file: &[u8]| Ok(listing::listing(file, Method::Rules));
        let verdict = apart::told_apart(method, 1, apart::DEFAULT_FILES, right).unwrap();
        assert!(matches!(verdict, apart::Verdict::Told(_)), "{}: {verdict:?}", method.name());
    }
}
