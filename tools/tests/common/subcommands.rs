//! Every subcommand at once: command lines for what holds of all of them.

use std::process::Command;

use super::{example, run_of, stored, Run};

/// Every subcommand with the options that its help names.
pub const SUBCOMMANDS: [(&str, &[&str]); 9] = [
    ("plan", &["--rows"]),
    ("explain", &["--rows"]),
    ("draw", &["-o", "--rows"]),
    ("check", &["--rows"]),
    ("whatif", &["--line", "--rows"]),
    ("pack", &["-o"]),
    ("unpack", &["-o", "--rows"]),
    ("sizes", &["-o", "--rows"]),
    ("room", &[]),
];

/// The subcommand, these words, and behind them what it needs beside a file.
pub fn words(name: &str, file: &[&str]) -> Vec<String> {
    let others = match name {
        "check" => vec![example("q.query")],
        "whatif" => ["--line", "0", "1", "fixed", "2"].map(String::from).to_vec(),
        _ => vec![],
    };
    let file = file.iter().map(|word| word.to_string());
    [name.to_string()].into_iter().chain(file).chain(others).collect()
}

/// A command line of each subcommand that prints something and ends with 0.
pub fn command_lines() -> Vec<Vec<String>> {
    let [q, rows] = ["q.txt", "chain-from-rows.txt"].map(example);
    let lines: [&[&str]; 10] = [
        &["plan", &q],
        &["plan", &rows],
        &["explain", &q],
        &["draw", &q],
        &["check", &q, &stored("plan-q.txt")],
        &["whatif", &q, "--line", "1", "0", "fixed", "2"],
        &["room", &example("draft.txt")],
        &["pack", &q],
        &["unpack", &example("q.query")],
        &["sizes", &rows],
    ];
    lines.iter().map(|line| line.iter().map(|word| word.to_string()).collect()).collect()
}

/// It ends with this code, prints nothing, and says this among little else.
pub fn is_told(run: &Run, code: i32, said: &str, what: &str) {
    assert_eq!((run.code, run.text().as_str()), (code, ""), "{what}: {}", run.said);
    assert_eq!(run.said.starts_with("fanchuki: "), code != 1, "{what}: {}", run.said);
    assert!(run.said.contains(said), "{what}: {}", run.said);
    assert!(!run.said.contains("panicked") && run.said.len() < 2_000, "{what}: {}", run.said);
}

/// Each subcommand that runs a proved program ends with 3 and says this.
pub fn all_fail(tool: impl Fn() -> Command, said: &str) {
    let by_itself = ["pack", "unpack", "sizes"];
    for line in command_lines().iter().filter(|line| !by_itself.contains(&line[0].as_str())) {
        is_told(&run_of(tool().args(line)), 3, said, &format!("{line:?}"));
    }
}
