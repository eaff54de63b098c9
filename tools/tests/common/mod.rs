//! Runs of the built tool, and what it must print, stored.

// Each test file is a program of its own and takes what it needs.
#![allow(dead_code)]

pub mod damage;
pub mod examples;
pub mod proved;
pub mod stand_in;
pub mod subcommands;
pub mod texts;

use std::env;
use std::ffi::OsStr;
use std::fs;
use std::io::{self, Write};
use std::os::unix::fs::symlink;
use std::path::{Path, PathBuf};
use std::process::{self, Command};
use std::thread;

/// What a run came to.
#[derive(Clone, Debug, PartialEq, Eq)]
pub struct Run {
    pub code: i32,
    pub printed: Vec<u8>,
    pub said: String,
}

impl Run {
    pub fn text(&self) -> String {
        String::from_utf8(self.printed.clone()).expect("it prints UTF-8")
    }

    /// The code, what is printed and what is said.
    pub fn told(&self) -> (i32, String, String) {
        (self.code, self.text(), self.said.clone())
    }
}

/// The repository.
pub fn root() -> PathBuf {
    Path::new(env!("CARGO_MANIFEST_DIR")).join("..")
}

/// The path of an example of the repository.
pub fn example(name: &str) -> String {
    format!("{}/../examples/{name}", env!("CARGO_MANIFEST_DIR"))
}

/// The path of what is stored for the tests.
pub fn stored(name: &str) -> String {
    format!("{}/tests/stored/{name}", env!("CARGO_MANIFEST_DIR"))
}

/// The path of a file that a test writes.
pub fn scratch(name: &str) -> String {
    format!("{}/{name}", env!("CARGO_TARGET_TMPDIR"))
}

/// The path of a new link to `target`, outside the repository: there rt refuses every link.
pub fn link_to(target: &str, name: &str) -> String {
    let link = env::temp_dir().join(format!("fanchuki-{}-{name}", process::id()));
    let _ = fs::remove_file(&link);
    symlink(target, &link).expect("the link is made");
    link.into_os_string().into_string().expect("a name in UTF-8")
}

/// A folder of a test's own, with nothing in it.
pub fn empty_folder(name: &str) -> PathBuf {
    let folder = PathBuf::from(scratch(name));
    let _ = fs::remove_dir_all(&folder);
    fs::create_dir_all(&folder).expect("the folder is made");
    folder
}

/// The tool, told where the proved programs stand.
pub fn tool() -> Command {
    let mut command = Command::new(env!("CARGO_BIN_EXE_fanchuki"));
    if env::var_os("FANCHUKI_PROGRAMS").is_none() {
        command.env("FANCHUKI_PROGRAMS", root().join("target/bin"));
    }
    command
}

pub fn run<W: AsRef<OsStr>>(words: &[W]) -> Run {
    run_of(tool().args(words))
}

/// With this on its standard input.
pub fn run_on<W: AsRef<OsStr>>(words: &[W], input: &[u8]) -> Run {
    let (reader, mut writer) = io::pipe().expect("a pipe");
    thread::scope(|scope| {
        scope.spawn(move || writer.write_all(input));
        run_of(tool().args(words).stdin(reader))
    })
}

pub fn run_of(command: &mut Command) -> Run {
    let ended = command.output().expect("the tool ends");
    Run {
        code: ended.status.code().expect("no signal ends it"),
        printed: ended.stdout,
        said: String::from_utf8(ended.stderr).expect("it says UTF-8"),
    }
}

/// That this is what tests/stored/NAME has.
pub fn held_to(name: &str, printed: &str) {
    let expected = fs::read_to_string(stored(name)).unwrap_or_default();
    if printed != expected {
        let found = scratch(name);
        fs::write(&found, printed).expect("the found text is written");
        panic!("{name} is not as stored; found:\n{printed}(kept in {found})");
    }
}
