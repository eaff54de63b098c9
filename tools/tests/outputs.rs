//! Output that can't be written: every subcommand ends with 3 and says so.

mod common;

use std::fs::{self, File, OpenOptions};
use std::io;
use std::process::Command;

use common::subcommands::{self, is_told};
use common::{link_to, run, run_of, tool, Run};

/// Those of the subcommands, and of help.
fn command_lines() -> Vec<Vec<String>> {
    let help = [vec!["--help".into()], vec!["help".into(), "plan".into()]];
    subcommands::command_lines().into_iter().chain(help).collect()
}

/// By sh, which closes and opens descriptors as this says.
fn redirected(words: &[String], redirections: &str) -> Run {
    let told = tool();
    let mut command = Command::new("sh");
    command.args(["-c", &format!("exec \"$0\" \"$@\" {redirections}")]);
    command.arg(told.get_program()).args(words);
    command.envs(told.get_envs().filter_map(|(name, value)| Some((name, value?))));
    run_of(&mut command)
}

/// One line, and it gives the reason.
fn is_not_written(run: &Run, reason: &str, words: &[String]) {
    is_told(run, 3, &format!("the output was not written: {reason}"), &format!("{words:?}"));
    assert_eq!(run.said.lines().count(), 1, "{words:?}: {}", run.said);
}

#[test]
fn an_output_that_takes_all_is_written() {
    for words in command_lines() {
        let ended = run(&words);
        assert_eq!(ended.code, 0, "{words:?}: {}", ended.said);
        assert!(!ended.printed.is_empty(), "{words:?}");
        assert_eq!(redirected(&words, ""), ended, "{words:?}");
    }
}

#[test]
fn a_full_device_is_told() {
    for words in command_lines() {
        let full = OpenOptions::new().write(true).open("/dev/full").expect("/dev/full");
        let found = run_of(tool().args(&words).stdout(full));
        is_not_written(&found, "No space left", &words);
    }
}

#[test]
fn a_closed_output_is_told() {
    for words in command_lines() {
        is_not_written(&redirected(&words, ">&-"), "standard output is closed", &words);
        let all_but_errors = redirected(&words, "<&- >&-");
        is_not_written(&all_but_errors, "standard output is closed", &words);
    }
}

#[test]
fn an_output_for_reading_only_is_told() {
    for words in command_lines() {
        let null = File::open("/dev/null").expect("/dev/null");
        let found = run_of(tool().args(&words).stdout(null));
        is_not_written(&found, "Bad file descriptor", &words);
    }
}

#[test]
fn a_pipe_that_nobody_reads_is_told() {
    for words in command_lines() {
        let (reader, writer) = io::pipe().expect("a pipe");
        drop(reader);
        let found = run_of(tool().args(&words).stdout(writer));
        is_not_written(&found, "Broken pipe", &words);
    }
}

#[test]
fn the_exit_code_is_left_where_nothing_can_be_said() {
    for words in command_lines() {
        for errors in ["2>&-", "2>/dev/full"] {
            let good = redirected(&words, errors);
            assert_eq!((good.code, good.said.as_str()), (0, ""), "{words:?}");
            for output in [">&-", ">/dev/full"] {
                let found = redirected(&words, &format!("{output} {errors}"));
                assert_eq!((found.code, found.said.as_str()), (3, ""), "{words:?}");
            }
        }
    }
    let no_words = redirected(&[], "2>&-");
    assert_eq!((no_words.code, no_words.text().as_str()), (2, ""));
}

#[test]
fn a_file_that_is_not_written_is_told() {
    let full = link_to("/dev/full", "full.dot");
    for words in command_lines() {
        let is_written = ["draw", "pack", "unpack", "sizes"].contains(&words[0].as_str());
        for file in [&full, "/no/such/folder/plan.dot"].iter().filter(|_| is_written) {
            let found = run(&[&words[..], &["-o".into(), file.to_string()]].concat());
            is_told(&found, 3, &format!("{file} was not written: "), &words[0]);
        }
    }
    fs::remove_file(&full).expect("the link is removed");
}
