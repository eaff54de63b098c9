//! `fanchuki pack`, `unpack` and `sizes`: from text to file and back.

mod common;

use std::fs;

use common::examples::{self, EXAMPLES};
use common::{example, held_to, link_to, run, run_on, scratch, texts, Run};
use reference::encode;
use reference::generate::queries::Extent;
use reference::names::Names;
use reference::random::Random;
use reference::stated::{Form, Stated};
use reference::text;

fn refused(run: &Run, code: i32, said: &str) {
    assert_eq!((run.code, run.printed.len()), (code, 0), "{}", run.said);
    let first = run.said.lines().next().expect("something is said");
    assert_eq!(first.starts_with("fanchuki: "), code != 1, "{first}");
    assert!(first.ends_with(said), "{first}");
}

#[test]
fn every_example_packs_to_its_file_and_back() {
    for name in EXAMPLES {
        let words = examples::packed(name);
        let packed = run(&["pack", &examples::text(name)]);
        let file = fs::read(&words[0]).expect("the example");
        assert!(packed.printed == file, "{name}");
        let said = ["a file for load\n", "a file for load from rows\n"][words.len() - 1];
        assert_eq!((packed.code, packed.said.as_str()), (0, said), "{name}");
        let unpacked = run(&[vec!["unpack".into()], words].concat());
        assert_eq!((unpacked.code, unpacked.said.as_str()), (0, ""), "{name}");
        assert_eq!(run_on(&["pack", "-"], &unpacked.printed), packed, "{name}");
        held_to(&format!("unpack-{name}.txt"), &unpacked.text());
    }
}

fn named(seed: u64, case: u64, form: Form) -> (Stated, Names) {
    texts::random_query(&mut Random::for_case(seed, case), &Extent::full(), form)
}

#[test]
fn random_queries_packed_unpacked_and_packed_again() {
    for case in 0..400 {
        let form = Form::ALL[(case % 2) as usize];
        let (stated, names) = named(75, case, form);
        let packed = run_on(&["pack", "-"], text::print(&stated, &names).as_bytes());
        assert_eq!(packed.printed, encode::encode_stated(&stated), "case {case}");
        let words = ["unpack", "-", "--rows"];
        let words = if form == Form::Rows { &words[..] } else { &words[..2] };
        let unpacked = run_on(words, &packed.printed);
        assert_eq!(unpacked.text(), text::print(&stated, &Names::default()), "case {case}");
        assert_eq!(run_on(&["pack", "-"], &unpacked.printed), packed, "case {case}");
    }
}

#[test]
fn sizes_are_worked_out() {
    let of_text = run(&["sizes", &example("chain-from-rows.txt")]);
    assert_eq!((of_text.code, of_text.said.as_str()), (0, ""));
    assert_eq!(run(&["sizes", "--rows", &example("chain-from-rows.rows")]), of_text);
    held_to("sizes-chain-from-rows.txt", &of_text.text());
    let [by_sizes, by_rows] =
        [&of_text.printed, &fs::read(example("chain-from-rows.txt")).unwrap()]
            .map(|text| run_on(&["plan", "-"], text));
    assert_eq!(by_sizes, by_rows);
}

/// A text keeps its names, and packs to the file with the model's sizes.
#[test]
fn random_sizes_are_the_model_s() {
    for case in 0..100 {
        let (stated, names) = named(76, case, Form::Rows);
        let of_text = run_on(&["sizes", "-"], text::print(&stated, &names).as_bytes());
        let of_file = run_on(&["sizes", "-", "--rows"], &encode::encode_stated(&stated));
        let with_sizes = Stated::from(stated.query);
        assert_eq!(of_text.text(), text::print(&with_sizes, &names), "case {case}");
        assert_eq!(of_file.text(), text::print(&with_sizes, &Names::default()), "case {case}");
        let packed = run_on(&["pack", "-"], &of_text.printed);
        assert_eq!(packed.said, "a file for load\n", "case {case}");
        assert_eq!(packed.printed, encode::encode_stated(&with_sizes), "case {case}");
    }
}

#[test]
fn what_has_its_sizes_is_refused() {
    for name in ["q.txt", "q.query"] {
        refused(&run(&["sizes", &example(name)]), 1, "has its sizes already, and no rows");
    }
}

#[test]
fn a_file_of_its_own() {
    let [packed, unpacked, sizes] = ["packed", "unpacked", "sizes"].map(scratch);
    let q = example("q.query");
    let run_to = |words: &[&str], out: &str| {
        let run = run(&[words, &["-o", out]].concat());
        assert_eq!((run.code, run.printed.len()), (0, 0), "{}", run.said);
        (fs::read(out).expect("it is written"), run.said)
    };
    let (file, said) = run_to(&["pack", &example("q.txt")], &packed);
    assert!(file == fs::read(&q).expect("the example"));
    assert_eq!(said, "a file for load\n");
    assert_eq!(
        run_to(&["unpack", &packed], &unpacked),
        (run(&["unpack", &q]).printed, String::new())
    );
    let rows = example("chain-from-rows.txt");
    assert_eq!(run_to(&["sizes", &rows], &sizes).0, run(&["sizes", &rows]).printed);
    assert_eq!(run(&["unpack", &q, "-o", "-"]), run(&["unpack", &q]));
}

#[test]
fn what_was_read_is_not_written_over() {
    for words in [["pack", "q.txt"], ["unpack", "q.query"], ["sizes", "chain-from-rows.txt"]] {
        let before = fs::read(example(words[1])).expect("the example");
        let own = scratch(&format!("own-{}", words[1]));
        fs::write(&own, &before).expect("it is written");
        let linked = link_to(&own, &format!("own-{}", words[1]));
        for out in [&own, &linked] {
            let found = run(&[words[0], &own, "-o", out]);
            refused(&found, 2, "is FILE itself, which is not written over");
        }
        fs::remove_file(&linked).expect("the link is removed");
        assert_eq!(fs::read(&own).expect("it is there"), before, "{words:?}");
    }
}

#[test]
fn each_takes_its_own_kind() {
    let [text, file] = ["q.txt", "q.query"].map(example);
    refused(&run(&["pack", &file]), 2, "q.query is packed already");
    refused(&run(&["unpack", &text]), 2, "q.txt is a text already");
    refused(&run(&["pack", &text, "--rows"]), 2, "no option --rows");
}

#[test]
fn bytes_that_are_neither_are_told_as_a_refused_file() {
    refused(&run_on(&["unpack", "-"], b""), 1, "Sites, count, offset 0: 1 byte needed, 0 there");
    let said = "Sites, count, offset 0, value 255: must be 1 to 8";
    refused(&run_on(&["unpack", "-"], &[255; 5_000]), 1, said);
    assert_eq!(run_on(&["pack", "-"], &[255; 5_000]).code, 1);
    assert_eq!(run_on(&["pack", "-"], b"").code, 1);
}
