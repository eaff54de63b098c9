//! Where the proved programs stand, how they are started, and a run of `plan`.

use std::env;
use std::fmt::Display;
use std::io::Write;
use std::path::{Path, PathBuf};
use std::process::{Child, Command, Stdio};
use std::thread;

use crate::failure::Failure;
use crate::proved::answers::{self, Refused, Solved};

/// Names the folder with `plan` and `calls`, where it is set. An empty name counts as none: a
/// program's bare name would be looked for among the system's.
const FOLDER_VARIABLE: &str = "FANCHUKI_PROGRAMS";

/// Of a line that no proved program prints, so many characters are told.
const MOST_QUOTED: usize = 60;

/// The program of that name, proved and built.
pub fn find(name: &str) -> Result<PathBuf, Failure> {
    let folders = match env::var_os(FOLDER_VARIABLE) {
        Some(folder) if !folder.is_empty() => vec![PathBuf::from(folder)],
        _ => own_folders(),
    };
    let programs = || folders.iter().map(|folder| folder.join(name));
    let found = programs().find(|program| program.is_file());
    found.ok_or_else(|| {
        let looked: Vec<String> = programs().map(|path| path.display().to_string()).collect();
        Failure::Fault(format!(
            "the proved program '{name}' is not there (looked for {}); \
             {FOLDER_VARIABLE} can name its folder",
            looked.join(" and ")
        ))
    })
}

/// Where the tool is installed in bin, libexec beside it; where cargo has built it in the
/// repository's tools/target/PROFILE, what rt has built there.
fn own_folders() -> Vec<PathBuf> {
    let Ok(own) = env::current_exe() else { return Vec::new() };
    let above = |levels: usize| own.ancestors().nth(levels);
    let installed = above(2).map(|prefix| prefix.join("libexec/fanchuki"));
    let is_built = above(2).is_some_and(|folder| folder.ends_with("tools/target"));
    let built = above(4).filter(|_| is_built).map(|root| root.join("target/bin"));
    installed.into_iter().chain(built).collect()
}

/// Its standard input and output are pipes; what it says on standard error is seen as it is.
pub fn start(program: &Path) -> Result<Child, Failure> {
    let mut command = Command::new(program);
    let child = command.stdin(Stdio::piped()).stdout(Stdio::piped()).spawn();
    child.map_err(|error| failed(program, error))
}

/// What `plan` answers for an ordinary file.
pub fn plan(file: &[u8]) -> Result<Result<Solved, Refused>, Failure> {
    let program = find("plan")?;
    let mut child = start(&program)?;
    let mut stdin = child.stdin.take().expect("standard input is piped");
    let ended = thread::scope(|scope| {
        // It may stop reading before the end of a file that it refuses.
        let feeding = move || stdin.write_all(file);
        thread::Builder::new().spawn_scoped(scope, feeding)?;
        child.wait_with_output()
    });
    let ended = ended.map_err(|error| failed(&program, error))?;
    if !ended.status.success() {
        return Err(failed(&program, format!("ended by {}", ended.status)));
    }
    let printed = String::from_utf8_lossy(&ended.stdout);
    answers::listing(&printed)
        .ok_or_else(|| failed(&program, format!("not a listing: {}", front(&printed))))
}

/// A fault of that program.
fn failed(program: &Path, reason: impl Display) -> Failure {
    Failure::Fault(format!("{}: {reason}", program.display()))
}

/// What a program printed, its front where it is long.
pub fn front(printed: &str) -> String {
    let shown: String = printed.chars().take(MOST_QUOTED).collect();
    let rest = if shown.len() < printed.len() { " and more" } else { "" };
    format!("'{}'{rest}", shown.escape_debug())
}
