//! A run of the proved program `calls`: one planner, asked call by call.

use std::fmt::Display;
use std::io::{BufRead, BufReader, Read, Write};
use std::os::unix::process::ExitStatusExt;
use std::process::{Child, ChildStdin, ChildStdout};

use reference::limits::{LONGEST_PLAN, MOST_CELLS};
use reference::planner::{Link, Loaded};
use reference::room::{Draft, Figures};
use reference::script::Call;
use reference::stated::Form;

use crate::failure::Failure;
use crate::proved::answers;
pub use crate::proved::answers::{Refused, Solved};
use crate::proved::programs;

/// The most bytes that a record carries.
const MOST_CARRIED: usize = 65_535;

/// No answer is nearly as long.
const LONGEST_LINE: u64 = 65_536;

/// What ends a program at once.
const SIGKILL: i32 = 9;

/// The program, running; every answer is read before the next call is made.
pub struct Calls {
    child: Child,
    stdin: ChildStdin,
    stdout: BufReader<ChildStdout>,
}

impl Calls {
    pub fn start() -> Result<Calls, Failure> {
        let program = programs::find("calls")?;
        let mut child = programs::start(&program)?;
        let stdin = child.stdin.take().expect("standard input is piped");
        let stdout = BufReader::new(child.stdout.take().expect("standard output is piped"));
        Ok(Calls { child, stdin, stdout })
    }

    pub fn load(&mut self, file: &[u8], form: Form) -> Result<Result<Loaded, Refused>, Failure> {
        self.ask(&Call::Load { form, file: front(file) }, answers::load)
    }

    pub fn link(&mut self, link: Link) -> Result<Result<(), Refused>, Failure> {
        self.ask(&Call::Link(link), answers::link)
    }

    /// With areas that are always enough.
    pub fn solve(&mut self) -> Result<Result<Solved, Refused>, Failure> {
        let call = Call::Solve { cells: MOST_CELLS as u32, output: LONGEST_PLAN as u32 };
        let solved = self.ask(&call, answers::solve)?;
        for expected in answers::after_solve(&solved) {
            let line = self.line()?;
            if line != *expected {
                return Err(unexpected(&line));
            }
        }
        Ok(solved)
    }

    /// The cost of the plan.
    pub fn check(&mut self, plan: &[u8]) -> Result<Result<u64, Refused>, Failure> {
        self.ask(&Call::Check { plan: front(plan) }, answers::check)
    }

    pub fn room(&mut self, draft: &Draft) -> Result<Result<Figures, Refused>, Failure> {
        self.ask(&Call::Room(draft.clone()), answers::room)
    }

    fn ask<T>(
        &mut self,
        call: &Call,
        admitted: fn(&[&str]) -> Option<T>,
    ) -> Result<Result<T, Refused>, Failure> {
        let sent = self.stdin.write_all(&call.record());
        // Where it takes no call any more, what it says last tells the most.
        let line = self.line()?;
        let answer = answers::read(&line, admitted).filter(|_| sent.is_ok());
        answer.ok_or_else(|| unexpected(&line))
    }

    fn line(&mut self) -> Result<String, Failure> {
        let mut line = Vec::new();
        match self.stdout.by_ref().take(LONGEST_LINE).read_until(b'\n', &mut line) {
            Ok(0) => Err(self.gone()),
            Ok(_) if line.ends_with(b"\n") => {
                line.pop();
                String::from_utf8(line)
                    .map_err(|line| unexpected(&String::from_utf8_lossy(line.as_bytes())))
            }
            Ok(_) => Err(unexpected(&String::from_utf8_lossy(&line))),
            Err(error) => Err(failed(format!("gave no answer: {error}"))),
        }
    }

    /// It gives no answer any more. One that is ending already keeps its status.
    fn gone(&mut self) -> Failure {
        let _ = self.child.kill();
        match self.child.wait() {
            Ok(status) if status.signal() != Some(SIGKILL) => {
                failed(format!("ended without an answer, by {status}"))
            }
            _ => failed("gave no answer"),
        }
    }
}

impl Drop for Calls {
    /// Nothing is asked any more, so how it ends has no part in any answer.
    fn drop(&mut self) {
        let _ = self.child.kill();
        let _ = self.child.wait();
    }
}

fn unexpected(line: &str) -> Failure {
    failed(format!("answered {}", programs::front(line)))
}

fn failed(reason: impl Display) -> Failure {
    Failure::Fault(format!("the program 'calls' {reason}"))
}

/// What a record carries of a file or a plan. One that is longer than this is refused for what
/// stands far before: the longest query file has under 2,000 bytes, the longest plan under 300.
fn front(bytes: &[u8]) -> Vec<u8> {
    bytes[..bytes.len().min(MOST_CARRIED)].to_vec()
}
