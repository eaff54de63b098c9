//! `fanchuki room`: the figures are the proved program's, and a refusal has its words.

mod common;

use common::stand_in::{run_by_answers, run_by_script};
use common::{example, run, run_on};
use reference::encode;
use reference::generate::queries::{self, Extent};
use reference::names::Names;
use reference::pinned;
use reference::random::Random;
use reference::room::{self, Draft};
use reference::text;

const BARE: &str = "sites 0 to 1
relations 0 to 2
join 0 links 0 and 1
join 1 links 2 and 1
";

fn figures(subqueries: u64, cells: u64, trials: u64) -> (i32, String, String) {
    let printed = format!("subqueries {subqueries}\ncells {cells}\ntrials {trials}\n");
    (0, printed, String::new())
}

fn refused(said: &str) -> (i32, String, String) {
    (1, String::new(), format!("{said}\n"))
}

fn room(input: &[u8]) -> (i32, String, String) {
    run_on(&["room", "-"], input).told()
}

#[test]
fn the_examples() {
    let told = |name: &str| run(&["room", &example(name)]).told();
    assert_eq!(told("draft.txt"), figures(11, 33, 36));
    assert_eq!(told("q.txt"), figures(3, 9, 3));
    assert_eq!(told("q.query"), figures(3, 9, 3));
    assert_eq!(told("star-of-nine.txt"), figures(264, 2112, 8192));
    assert_eq!(told("star-of-nine.query"), figures(264, 2112, 8192));
    assert_eq!(told("longest-plan.query"), figures(45, 360, 960));
    assert_eq!(told("chain-from-rows.rows"), told("chain-from-rows.txt"));
    assert_eq!(room(BARE.as_bytes()), figures(6, 12, 8));
}

#[test]
fn random_queries_as_texts_and_as_files() {
    for case in 0..30 {
        let query = queries::query(&mut Random::for_case(77, case), &Extent::full());
        let own = room::room(&Draft::of(&query)).expect("a query's draft");
        let expected = figures(own.subqueries, own.cells, own.trials);
        assert_eq!(room(&encode::encode(&query)), expected);
        assert_eq!(room(text::print(&query.into(), &Names::default()).as_bytes()), expected);
    }
}

/// The number of joins, their relations and what they reach are the program's to judge.
#[test]
fn refusals_of_a_packed_file() {
    let changed = |change: &dyn Fn(&mut Vec<u8>)| {
        let mut file = encode::encode(&pinned::chain_of_five());
        change(&mut file);
        room(&file)
    };
    // Six sites and five relations: the joins begin behind 55 + 11 + 1 bytes.
    assert_eq!(changed(&|_| {}), figures(15, 90, 120));
    assert_eq!(
        changed(&|file| file[66] = 3),
        refused("refused 2: 3 joins for 5 relations: must be 4, one fewer")
    );
    assert_eq!(
        changed(&|file| file[66] = 0),
        refused("refused 2: no joins for 5 relations: must be 4, one fewer")
    );
    assert_eq!(
        changed(&|file| file[70] = 5),
        refused("refused 3: join 1 names relation 5: must be 0 to 4")
    );
    let apart = "refused 4: the joins do not reach relation 3 and relation 4 from relation 0";
    assert_eq!(changed(&|file| file[71] = 4), refused(apart));
    let cut = |length: usize| {
        let said = format!("standard input: it ends at offset {length}, before its joins do");
        (changed(&|file| file.truncate(length)), refused(&said))
    };
    for length in [1, 54, 56, 66, 67, 74] {
        let (found, expected) = cut(length);
        assert_eq!(found, expected);
    }
    // What stands in homes and prices and behind the joins has no part.
    assert_eq!(changed(&|file| file.truncate(75)), figures(15, 90, 120));
    assert_eq!(changed(&|file| file[1] = 2), figures(15, 90, 120));
    assert_eq!(changed(&|file| file.extend([1; 70_000])), figures(15, 90, 120));
    let none = [&[0, 1, 0, 0, 0][..], &[0; 20]].concat();
    assert_eq!(room(&none), refused("refused 2: 0 sites: must be 1 to 8"));
    // Behind a count that is too large it can't be told where the joins stand.
    assert_eq!(changed(&|file| file[0] = 9), refused("refused 2: 9 sites: must be 1 to 8"));
    assert_eq!(changed(&|file| file[0] = 200), refused("refused 2: 200 sites: must be 1 to 8"));
    let many = "refused 2: 200 relations: must be 1 to 9";
    assert_eq!(changed(&|file| file[55] = 200), refused(many));
    let no_relation = [&[1][..], &[0; 20]].concat();
    assert_eq!(room(&no_relation), refused("refused 2: 0 relations: must be 1 to 9"));
}

#[test]
fn damaged_files_end_well() {
    for case in 0..100 {
        let mut random = Random::for_case(78, case);
        let form = random.pick(&reference::stated::Form::ALL);
        let file = reference::generate::damage::file(&mut random, &Extent::full(), form);
        let (code, ..) = room(&file);
        assert!(code == 0 || code == 1, "{code}: {file:?}");
    }
}

#[test]
fn a_text_s_faults_are_told() {
    assert_eq!(room(b"relation 0\n").0, 1);
    assert_eq!(room(b"").0, 1);
    assert_eq!(room(b"\xff").0, 1);
}

/// A program that ends after its answer, or without one.
#[test]
fn a_program_that_ends_is_a_fault() {
    for script in ["true", "exit 3", "kill -s SEGV $$", "printf 'room 11 33 36'"] {
        let (code, printed, said) = run_by_script(script, &["room", &example("draft.txt")]).told();
        assert_eq!((code, printed.as_str()), (3, ""), "{script}: {said}");
        assert!(said.starts_with("fanchuki: the program 'calls' "), "{said}");
    }
}

#[test]
fn only_a_right_answer_is_taken() {
    let answered =
        |line: &str| run_by_answers(&format!("{line}\n"), &["room", &example("draft.txt")]).told();
    assert_eq!(answered("room 11 33 36"), figures(11, 33, 36));
    for (line, said) in [
        ("room 11 33", "the program 'calls' answered 'room 11 33'"),
        ("room 11 33 36 1", "the program 'calls' answered 'room 11 33 36 1'"),
        ("room 11 33 x", "the program 'calls' answered 'room 11 33 x'"),
        ("room 11 33 -36", "the program 'calls' answered 'room 11 33 -36'"),
        ("load 11", "the program 'calls' answered 'load 11'"),
        (
            "room 11 33 35",
            "the proved room answers 11 subqueries, 33 cells and 35 trials, \
             the tool comes to 11 subqueries, 33 cells and 36 trials",
        ),
        (
            "refused 4",
            "the proved room answers refused 4, \
             the tool comes to 11 subqueries, 33 cells and 36 trials",
        ),
    ] {
        let expected = (3, String::new(), format!("fanchuki: {said}\n"));
        assert_eq!(answered(line), expected);
    }
}
