//! Standard output and files, written whole or told of.

use std::ffi::OsStr;
use std::fs::{self, File};
use std::io::{self, Write};
use std::os::fd::AsFd;
use std::os::raw::c_int;
use std::path::Path;
use std::sync::atomic::{AtomicBool, Ordering};

use crate::failure::Failure;

/// Whether standard output was open when the program began. Before `main` Rust's runtime opens
/// /dev/null in the place of a closed one, and what is written there is lost without a word.
static OPEN: AtomicBool = AtomicBool::new(true);

const STANDARD_OUTPUT: c_int = 1;
const F_GETFD: c_int = 1;

extern "C" {
    fn fcntl(descriptor: c_int, command: c_int, ...) -> c_int;
}

extern "C" fn look() {
    // SAFETY: F_GETFD takes no third argument and changes nothing.
    let open = unsafe { fcntl(STANDARD_OUTPUT, F_GETFD) } != -1;
    OPEN.store(open, Ordering::Relaxed);
}

/// Called by the loader, before the runtime.
#[used]
#[link_section = ".init_array"]
static LOOK: extern "C" fn() = look;

/// All of it to standard output.
pub fn print(bytes: &[u8]) -> Result<(), Failure> {
    let failed = |reason: String| Failure::Fault(format!("the output was not written: {reason}"));
    if bytes.is_empty() {
        return Ok(());
    }
    if !OPEN.load(Ordering::Relaxed) {
        return Err(failed("standard output is closed".into()));
    }
    written(bytes).map_err(|error| failed(error.to_string()))
}

/// As to a file: `io::stdout` takes an output that is open for reading only for a written one.
fn written(bytes: &[u8]) -> io::Result<()> {
    let output = io::stdout().as_fd().try_clone_to_owned()?;
    File::from(output).write_all(bytes)
}

/// All of it to the file of that name.
pub fn write(name: &OsStr, bytes: &[u8]) -> Result<(), Failure> {
    fs::write(name, bytes).map_err(|error| {
        Failure::Fault(format!("{} was not written: {error}", Path::new(name).display()))
    })
}
