//! Command lines that can't be carried out: 2, and the reason.

mod common;

use std::ffi::OsString;
use std::fs;
use std::os::unix::ffi::OsStringExt;

use common::subcommands::{is_told, words, SUBCOMMANDS};
use common::{example, run, run_of, run_on, scratch, tool, Run};

const NOT_PACKED: &str = "--rows is for a packed file, and this is a text";

fn is_usage(run: &Run, said: &str, what: &str) {
    is_told(run, 2, said, what);
}

#[test]
fn a_subcommand_is_one_of_the_nine() {
    is_usage(&run::<&str>(&[]), "no subcommand\nusage: fanchuki ", "alone");
    for word in ["xyz", "", "plans-of-all", "-", "p"] {
        is_usage(&run(&[word]), &format!("no subcommand '{word}'\nusage: fanchuki "), word);
        is_usage(&run(&["help", word]), &format!("no subcommand '{word}'"), word);
    }
    is_usage(&run(&["help", "plan", "more"]), "'more' is one word too many", "help plan more");
}

#[test]
fn a_near_miss_suggests_the_right_word() {
    for (word, meant) in [("pln", "plan"), ("PLAN", "plan"), ("expalin", "explain")] {
        let said = format!("no subcommand '{word}'; did you mean '{meant}'?\nusage: fanchuki ");
        is_usage(&run(&[word]), &said, word);
    }
    let q = example("q.txt");
    let said = "no option --row; did you mean '--rows'?\n";
    is_usage(&run(&["plan", &q, "--row"]), said, "--row");
    is_usage(&run(&["room", &q, "--rows"]), "no option --rows\n", "room has no --rows");
}

#[test]
fn help_of_help_is_the_overview() {
    let overview = run(&["help"]);
    for words in [["help", "help"], ["help", "--help"], ["--help", "--help"]] {
        assert_eq!(run(&words), overview, "{words:?}");
    }
}

#[test]
fn unknown_options_are_told() {
    for (name, _) in SUBCOMMANDS {
        for option in ["--nonsense", "-x", "--rows=1", "--ROWS"] {
            let words = words(name, &[&example("q.txt"), option]);
            let ended = run(&words);
            is_usage(&ended, option, &format!("{words:?}"));
            let last = format!("\n'fanchuki {name} --help' tells more\n");
            assert!(ended.said.ends_with(&last), "{words:?}: {}", ended.said);
        }
    }
}

#[test]
fn missing_words_are_told() {
    for (name, _) in SUBCOMMANDS {
        is_usage(&run(&words(name, &[])), "missing", name);
        let said = "the FILE";
        is_usage(&run(&[name]), said, name);
        is_usage(&run(&[name, "--"]), said, name);
    }
    let q = example("q.txt");
    is_usage(&run(&["draw", &q, "-o"]), "-o needs a value", "draw -o");
}

#[test]
fn words_too_many_are_told() {
    for (name, _) in SUBCOMMANDS {
        let q = example("q.txt");
        is_usage(&run(&words(name, &[&q, &q, &q])), "q.txt' is one word too many", name);
    }
}

#[test]
fn an_option_is_there_once() {
    let out = scratch("twice.dot");
    for (name, options) in SUBCOMMANDS {
        if options.contains(&"--rows") {
            let words = words(name, &["--rows", &example("chain-from-rows.rows"), "--rows"]);
            is_usage(&run(&words), "--rows is there twice", name);
        }
        if options.contains(&"-o") {
            let file = if name == "unpack" { "q.query" } else { "chain-from-rows.txt" };
            let words = words(name, &["-o", &out, &example(file), "-o", &out]);
            is_usage(&run(&words), "-o is there twice", name);
        }
    }
    assert!(fs::metadata(&out).is_err(), "{out} was written");
}

#[test]
fn rows_are_not_sizes() {
    for name in ["plan", "explain", "draw", "check", "whatif", "sizes"] {
        let file = example("q.txt");
        is_usage(&run(&words(name, &["--rows", &file])), NOT_PACKED, name);
        let words = words(name, &["--rows", "-"]);
        let text = fs::read(&file).expect("the example");
        is_usage(&run_on(&words, &text), NOT_PACKED, name);
    }
}

#[test]
fn behind_two_hyphens_every_word_is_a_file() {
    is_usage(&run(&["plan", "--", "--help"]), "--help: No such file", "--help");
    is_usage(&run(&["plan", "--", "--rows"]), "--rows: No such file", "--rows");
    let q = example("q.txt");
    assert_eq!(run(&["plan", "--", &q]), run(&["plan", &q]));
}

#[test]
fn words_need_not_be_text() {
    let strange = |bytes: &[u8]| OsString::from_vec(bytes.to_vec());
    is_usage(&run_of(tool().arg(strange(b"pl\xffan"))), "no subcommand", "a subcommand");
    for (name, _) in SUBCOMMANDS {
        let words = words(name, &["x"]);
        let found = run_of(tool().args(&words).arg(strange(b"--\xff")));
        is_usage(&found, "--\u{fffd}", name);
    }
    let found = run_of(tool().arg("plan").arg(strange(b"no\xfffile")));
    is_usage(&found, "no\u{fffd}file: No such file", "a file");
}
