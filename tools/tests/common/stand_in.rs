//! A script of the shell in the place of the programs that the tool runs.

use std::path::{Path, PathBuf};
use std::process::Command;

use super::{run_of, tool, Run};

/// What `calls` answers while Q is explained: load, solve, check; then the line from 1 to 0
/// closed and opened again, and a load without joins at site 0 and one with them.
pub const CALLS_OF_Q: &str = "\
load 2 3
solved 21 9 3 040100010102000300
cells OK
check 21
link
solved 23 11 3 0501000101020202000300
cells OK
link
load 2 3
solved 24 11 3 0501000201010103000200
cells OK
load 2 3
";

/// Its programs `calls`, `plan` and `dot` run what STAND_IN says.
fn folder() -> PathBuf {
    Path::new(env!("CARGO_MANIFEST_DIR")).join("tests/stand_in")
}

/// The tool with the proved programs of a folder.
pub fn tool_by(folder: &Path) -> Command {
    let mut tool = tool();
    tool.env("FANCHUKI_PROGRAMS", folder);
    tool
}

/// The tool with the script for the proved programs.
pub fn tool_by_script(script: &str) -> Command {
    let mut tool = tool_by(&folder());
    tool.env("STAND_IN", script);
    tool
}

pub fn run_by_script(script: &str, words: &[&str]) -> Run {
    run_of(tool_by_script(script).args(words))
}

/// With a `calls` that gives these answers, whatever it is asked.
pub fn run_by_answers(answers: &str, words: &[&str]) -> Run {
    run_by_script(&format!("printf '%s' '{answers}'; exec cat >/dev/null"), words)
}

/// With the script for Graphviz's `dot`, and no other program on the path.
pub fn run_by_dot(script: &str, words: &[&str]) -> Run {
    run_of(tool().args(words).env("PATH", folder()).env("STAND_IN", script))
}
