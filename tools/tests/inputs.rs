//! Files that are not there, can't be read or are no query: told by their names, never a panic.

mod common;

use std::fs::{self, File, Permissions};
use std::os::unix::fs::PermissionsExt;
use std::process::Command;

use common::subcommands::{is_told, words, SUBCOMMANDS};
use common::{example, run, run_of, run_on, scratch, tool};

/// Every subcommand on this file.
fn all_told(file: &str, code: i32, said: &str) {
    for (name, _) in SUBCOMMANDS {
        let found = run(&words(name, &[file]));
        is_told(&found, code, &format!("{file}: {said}"), name);
    }
    let as_plan = run(&["check", &example("q.txt"), file]);
    is_told(&as_plan, code, &format!("{file}: {said}"), "as a plan");
}

#[test]
fn a_file_that_is_not_there() {
    all_told("/no/such/file.txt", 2, "No such file");
    all_told("no such file.txt", 2, "No such file");
    all_told(&format!("{}/below", example("q.txt")), 2, "Not a directory");
    is_told(&run(&["plan", ""]), 2, "'': No such file", "no name");
}

/// They are taken for packed files, which may not be what was meant.
#[test]
fn a_text_with_bytes_that_no_text_has() {
    let text = fs::read_to_string(example("q.txt")).expect("the example");
    let escaped = text.replacen("\nrelation 0", "\n\u{1b}relation 0", 1);
    let line = 1 + text.lines().position(|line| line.starts_with("relation 0")).expect("it");
    let wide: Vec<u8> =
        "\u{feff}".encode_utf16().chain(text.encode_utf16()).flat_map(u16::to_le_bytes).collect();
    for name in ["plan", "explain", "draw", "pack", "unpack", "sizes", "room"] {
        let said = format!("it is no text, since line {line} has the byte 0x1b\n");
        is_told(&run_on(&[name, "-"], escaped.as_bytes()), 1, &said, name);
        let said = "it begins like a text in UTF-16, and a text is in UTF-8\n";
        is_told(&run_on(&[name, "-"], &wide), 1, said, name);
    }
}

#[test]
fn a_folder() {
    all_told(&example(""), 2, "Is a directory");
}

/// Who may read everything reads it all the same.
#[test]
fn a_file_without_leave() {
    let file = scratch("unreadable.txt");
    let _ = fs::remove_file(&file);
    fs::write(&file, "sites 0 to 2").expect("it is written");
    fs::set_permissions(&file, Permissions::from_mode(0o000)).expect("it is changed");
    if File::open(&file).is_err() {
        all_told(&file, 2, "Permission denied");
    }
    fs::remove_file(&file).expect("it is removed");
}

#[test]
fn a_file_that_fails_while_it_is_read() {
    all_told("/proc/self/mem", 3, "Input/output error");
}

#[test]
fn a_file_without_end() {
    all_told("/dev/zero", 1, "over 1048576 bytes");
    let file = scratch("long.txt");
    fs::write(&file, vec![b' '; (1 << 20) + 1]).expect("it is written");
    all_told(&file, 1, "over 1048576 bytes");
}

/// Longer than a record of `calls` and shorter than what is read: refused as a query.
#[test]
fn a_long_packed_file() {
    let file = scratch("long.query");
    for length in [65_534, 65_535, 65_536, 1 << 20] {
        fs::write(&file, vec![0; length]).expect("it is written");
        for name in ["plan", "explain", "draw", "check", "whatif", "unpack"] {
            for rows in [&[][..], &["--rows"]] {
                let line = words(name, &[&[&file[..]], rows].concat());
                is_told(&run(&line), 1, "refused 2", &format!("{line:?}"));
            }
        }
        fs::write(&file, vec![1; length]).expect("it is written");
        let as_plan = run(&["check", &example("q.txt"), &file]);
        assert_eq!(as_plan.code, 1, "{}", as_plan.said);
    }
}

#[test]
fn standard_input_with_nothing_in_it() {
    for (name, _) in SUBCOMMANDS {
        let words = words(name, &["-"]);
        let on_nothing = run_on(&words, b"");
        is_told(&on_nothing, 1, "", name);
        let mut closing = Command::new("sh");
        closing.args(["-c", "exec \"$0\" \"$@\" <&-"]).arg(tool().get_program()).args(&words);
        is_told(&run_of(&mut closing), 1, "", name);
    }
}

#[test]
fn standard_input_without_end() {
    for (name, _) in SUBCOMMANDS {
        let zeros = File::open("/dev/zero").expect("/dev/zero");
        let found = run_of(tool().args(words(name, &["-"])).stdin(zeros));
        is_told(&found, 1, "standard input: over 1048576 bytes", name);
    }
}
