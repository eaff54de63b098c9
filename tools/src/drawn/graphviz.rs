//! Graphviz's own program `dot`, run to make a picture.

use std::io::{self, ErrorKind, Write};
use std::process::{Command, Stdio};
use std::thread;

/// What became of it.
pub enum Picture {
    /// The bytes, and what `dot` said beside them.
    Made { svg: Vec<u8>, said: String },
    /// It did not start: it is not there, or what else the reason is.
    NotStarted(String),
    /// It started and made no picture.
    Failed(String),
}

pub fn svg(dot: &str) -> Picture {
    let started = Command::new("dot")
        .arg("-Tsvg")
        .stdin(Stdio::piped())
        .stdout(Stdio::piped())
        .stderr(Stdio::piped())
        .spawn();
    let mut child = match started {
        Ok(child) => child,
        Err(error) => return Picture::NotStarted(reason(&error)),
    };
    let stdin = child.stdin.take();
    let ended = thread::scope(|scope| {
        // One that stops reading early tells why when it ends.
        scope.spawn(move || stdin.map(|mut stdin| stdin.write_all(dot.as_bytes())));
        child.wait_with_output()
    });
    match ended {
        Err(error) => Picture::Failed(error.to_string()),
        Ok(ended) => {
            let said = String::from_utf8_lossy(&ended.stderr).trim_end().to_string();
            let colon = if said.is_empty() { "" } else { ": " };
            if !ended.status.success() {
                Picture::Failed(format!("ended by {}{colon}{said}", ended.status))
            } else if ended.stdout.is_empty() {
                Picture::Failed(format!("printed nothing{colon}{said}"))
            } else {
                Picture::Made { svg: ended.stdout, said }
            }
        }
    }
}

fn reason(error: &io::Error) -> String {
    match error.kind() {
        ErrorKind::NotFound => "is not there".into(),
        _ => format!("did not start ({error})"),
    }
}
