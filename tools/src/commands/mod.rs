//! The subcommands, a file each.

mod check;
mod draw;
mod explain;
mod pack;
mod plan;
mod room;
mod sizes;
mod unpack;
mod whatif;

use std::ffi::{OsStr, OsString};

use crate::done::Done;
use crate::failure::Failure;
use crate::near::did_you_mean;
use crate::words::too_many;

pub struct Command {
    pub name: &'static str,
    /// What `--help` prints: its first line says what the subcommand is for.
    pub help: &'static str,
    pub run: fn(&[OsString]) -> Result<Done, Failure>,
}

pub const ALL: [Command; 9] = [
    plan::COMMAND,
    explain::COMMAND,
    draw::COMMAND,
    check::COMMAND,
    whatif::COMMAND,
    pack::COMMAND,
    unpack::COMMAND,
    sizes::COMMAND,
    room::COMMAND,
];

/// Told at the end of every `--help`.
pub const ENDS: &str = "
FILE is a query as text or a packed file, told apart by itself; - is standard input.
Ends with 0 when done, 1 where something is refused or there is no route, 2 where the
command line can't be carried out as it stands, 3 at a fault.
";

/// Carries out a command line.
pub fn run(words: &[OsString]) -> Result<Done, Failure> {
    let Some((first, rest)) = words.split_first() else {
        return Err(Failure::Usage(format!("no subcommand\n{}", overview().trim_end())));
    };
    match first.to_str() {
        Some("--help" | "-h" | "help") => return help(rest),
        Some("--version") => return version(rest),
        _ => {}
    }
    let command = find(first)?;
    // Behind -- every word is a file's name.
    let mut options = rest.iter().take_while(|word| *word != "--");
    if options.any(|word| word == "--help" || word == "-h") {
        return Ok(told(command));
    }
    (command.run)(rest).map_err(|failure| match failure {
        Failure::Usage(reason) => {
            Failure::Usage(format!("{reason}\n'fanchuki {} --help' tells more", command.name))
        }
        other => other,
    })
}

fn find(name: &OsStr) -> Result<&'static Command, Failure> {
    let found = ALL.iter().find(|command| command.name == name);
    found.ok_or_else(|| {
        let name = name.to_string_lossy();
        let meant = did_you_mean(&name, ALL.iter().map(|command| command.name));
        Failure::Usage(format!("no subcommand '{name}'{meant}\n{}", overview().trim_end()))
    })
}

/// Of all subcommands, or of the one that is named.
fn help(words: &[OsString]) -> Result<Done, Failure> {
    match words {
        [] => Ok(Done::printing(overview())),
        [name] if name == "help" || name == "--help" => Ok(Done::printing(overview())),
        [name] => find(name).map(told),
        [_, more, ..] => Err(too_many(more)),
    }
}

fn told(command: &Command) -> Done {
    Done::printing(format!("{}{ENDS}", command.help))
}

fn overview() -> String {
    let mut text = String::from("usage: fanchuki SUBCOMMAND WORDS..\n\n");
    for command in &ALL {
        let purpose = command.help.lines().next().unwrap_or_default();
        text.push_str(&format!("  {:8} {purpose}\n", command.name));
    }
    text + "\n'fanchuki SUBCOMMAND --help' tells more of each, 'fanchuki --version' the version.\n"
}

fn version(words: &[OsString]) -> Result<Done, Failure> {
    match words {
        [] => Ok(Done::printing(format!("fanchuki {}\n", env!("CARGO_PKG_VERSION")))),
        [more, ..] => Err(too_many(more)),
    }
}
