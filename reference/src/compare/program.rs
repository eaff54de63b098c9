//! Running a built program on given input.

use std::ffi::OsString;
use std::io::{self, Read, Write};
use std::process::{ChildStdin, Command, Stdio};
use std::thread;
use std::time::Duration;

/// A program and its arguments.
#[derive(Clone, Debug)]
pub struct Program {
    pub path: OsString,
    pub arguments: Vec<String>,
}

/// How the input reaches the program.
#[derive(Clone, Copy, Debug)]
pub enum Feed {
    Whole,
    /// In pieces of so many bytes, with a pause after each of the first few.
    Pieces(usize),
}

/// Whatever prints an answer for an input: a built program, or a planner in a test.
pub trait Answering {
    fn run(&self, input: &[u8], feed: Feed) -> io::Result<String>;
}

impl Program {
    pub fn new(path: impl Into<OsString>) -> Program {
        Program { path: path.into(), arguments: Vec::new() }
    }
}

impl Answering for Program {
    /// What it prints; an ending other than 0 is added as a last line, so that it can
    /// equal no expected answer. A program that cannot start is an error.
    fn run(&self, input: &[u8], feed: Feed) -> io::Result<String> {
        let mut child = Command::new(&self.path)
            .args(&self.arguments)
            .stdin(Stdio::piped())
            .stdout(Stdio::piped())
            .stderr(Stdio::null())
            .spawn()?;
        let stdin = child.stdin.take().expect("standard input is piped");
        let mut stdout = child.stdout.take().expect("standard output is piped");
        let mut printed = Vec::new();
        thread::scope(|scope| {
            // A program may stop reading before the end; that is not a fault.
            scope.spawn(|| write_all(stdin, input, feed));
            stdout.read_to_end(&mut printed)
        })?;
        let status = child.wait()?;
        let mut text = String::from_utf8_lossy(&printed).into_owned();
        if !status.success() {
            text.push_str(&format!("ended by {status}\n"));
        }
        Ok(text)
    }
}

fn write_all(mut stdin: ChildStdin, input: &[u8], feed: Feed) -> io::Result<()> {
    match feed {
        Feed::Whole => stdin.write_all(input),
        Feed::Pieces(length) => {
            for (number, piece) in input.chunks(length).enumerate() {
                stdin.write_all(piece)?;
                stdin.flush()?;
                if number < 4 {
                    thread::sleep(Duration::from_micros(500));
                }
            }
            Ok(())
        }
    }
}
