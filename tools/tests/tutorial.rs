//! docs/TUTORIAL.md, followed to the letter: its files are written, its changed lines changed,
//! its commands run, and what they print is what the page shows.

mod common;

use std::env;
use std::fs;
use std::path::{Path, PathBuf};
use std::process::Command;

use common::{empty_folder, root, tool};

/// A fenced block of the page: the words behind its fence, and its lines.
struct Block {
    kind: Vec<String>,
    lines: Vec<String>,
}

#[test]
fn the_page_shows_what_happens() {
    let page = fs::read_to_string(root().join("docs/TUTORIAL.md")).expect("the page is there");
    let folder = empty_folder("tutorial");
    let mut commands = 0;
    for block in blocks(&page) {
        let kind: Vec<&str> = block.kind.iter().map(String::as_str).collect();
        match kind[..] {
            ["file", name] => write(&folder, name, &block.lines),
            ["append", name] => {
                let before = lines(&folder, name);
                write(&folder, name, &[before, block.lines].concat());
            }
            ["diff", from, "to", to] => {
                let changed = changed(&lines(&folder, from), &block.lines);
                write(&folder, to, &changed);
            }
            ["console"] => commands += follow(&folder, &block.lines),
            _ => {}
        }
    }
    assert!(commands >= 10, "the page has {commands} commands");
}

#[test]
fn its_query_is_the_example() {
    let page = fs::read_to_string(root().join("docs/TUTORIAL.md")).expect("the page is there");
    let said: Vec<String> = blocks(&page)
        .into_iter()
        .filter(|block| {
            block.kind[..] == ["file", "shop.txt"] || block.kind[..] == ["append", "shop.txt"]
        })
        .flat_map(|block| block.lines)
        .filter(|line| !line.is_empty() && !line.starts_with('#'))
        .collect();
    let example = fs::read_to_string(root().join("examples/shop.txt")).expect("it is there");
    let example: Vec<&str> =
        example.lines().filter(|line| !line.is_empty() && !line.starts_with('#')).collect();
    assert_eq!(said, example);
}

fn blocks(page: &str) -> Vec<Block> {
    let mut blocks = Vec::new();
    let mut open: Option<Block> = None;
    for line in page.lines() {
        match (line.strip_prefix("```"), open.take()) {
            (Some(_), Some(block)) => blocks.push(block),
            (Some(words), None) => {
                let kind = words.split_whitespace().map(str::to_string).collect();
                open = Some(Block { kind, lines: Vec::new() });
            }
            (None, Some(mut block)) => {
                block.lines.push(line.to_string());
                open = Some(block);
            }
            (None, None) => {}
        }
    }
    blocks
}

fn lines(folder: &Path, name: &str) -> Vec<String> {
    let text = fs::read_to_string(folder.join(name)).expect("the page has written it before");
    text.lines().map(str::to_string).collect()
}

fn write(folder: &Path, name: &str, lines: &[String]) {
    let text: String = lines.iter().map(|line| format!("{line}\n")).collect();
    fs::write(folder.join(name), text).expect("the file is written");
}

/// With the line behind `-` replaced by those behind `+`; it must be there once.
fn changed(before: &[String], diff: &[String]) -> Vec<String> {
    let [old] = &marked(diff, "-")[..] else { panic!("one line is changed: {diff:?}") };
    let new = marked(diff, "+");
    assert_eq!(before.iter().filter(|line| line == &old).count(), 1, "{old}");
    before
        .iter()
        .flat_map(|line| if line == old { new.clone() } else { vec![line.clone()] })
        .collect()
}

fn marked(diff: &[String], mark: &str) -> Vec<String> {
    diff.iter().filter_map(|line| line.strip_prefix(mark)).map(str::to_string).collect()
}

/// Runs each command behind `$ `, and holds what it prints to the lines that follow.
fn follow(folder: &Path, lines: &[String]) -> usize {
    let mut commands = 0;
    let mut rest = lines;
    while let Some((first, after)) = rest.split_first() {
        let command = first.strip_prefix("$ ").expect("a command comes first");
        let shown = after.iter().take_while(|line| !line.starts_with("$ ")).count();
        let expected: String = after[..shown].iter().map(|line| format!("{line}\n")).collect();
        assert_eq!(printed(folder, command), expected, "{command}");
        rest = &after[shown..];
        commands += 1;
    }
    commands
}

/// By the shell, which finds the tool on its path.
fn printed(folder: &Path, command: &str) -> String {
    let tool = tool();
    let own = Path::new(tool.get_program()).parent().expect("the tool stands in a folder");
    let mut path = vec![PathBuf::from(own)];
    path.extend(env::split_paths(&env::var_os("PATH").unwrap_or_default()));
    let mut shell = Command::new("sh");
    for (name, value) in tool.get_envs() {
        shell.env(name, value.unwrap_or_default());
    }
    let run = shell
        .args(["-c", &format!("exec 2>&1; {command}")])
        .env("PATH", env::join_paths(path).expect("folders make a path"))
        .current_dir(folder)
        .output()
        .expect("the shell runs");
    String::from_utf8(run.stdout).expect("it prints UTF-8")
}
