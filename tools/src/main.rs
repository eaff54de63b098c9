//! The tool `fanchuki`.

use std::ffi::OsString;
use std::io::{self, Write};
use std::process::ExitCode;

use fanchuki::{commands, output};

fn main() -> ExitCode {
    let words: Vec<OsString> = std::env::args_os().skip(1).collect();
    let ended = commands::run(&words).and_then(|done| {
        output::print(&done.printed)?;
        Ok(done)
    });
    // Where standard error can't be written either, the exit code is all that is left.
    let mut errors = io::stderr();
    match ended {
        Ok(done) => {
            let _ = errors.write_all(done.noted.as_bytes());
            ExitCode::from(done.code)
        }
        Err(failure) => {
            let _ = writeln!(errors, "{failure}");
            ExitCode::from(failure.code())
        }
    }
}
