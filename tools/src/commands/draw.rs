//! `fanchuki draw`: the cheapest plan as a picture.

use std::ffi::{OsStr, OsString};
use std::path::Path;

use crate::cheapest::{self, Cheapest};
use crate::commands::Command;
use crate::done::Done;
use crate::drawn;
use crate::drawn::graphviz::{self, Picture};
use crate::failure::Failure;
use crate::given::Given;
use crate::output;
use crate::proved::loaded::Loaded;
use crate::words::Words;
use crate::written;

pub const COMMAND: Command = Command { name: "draw", help: HELP, run };

const HELP: &str = "\
draws the cheapest plan as a tree, a colour for each site

usage: fanchuki draw FILE [--rows] [-o OUT]

  --rows   a packed FILE has row counts and divisors in place of sizes
  -o OUT   OUT ends in .dot, for Graphviz's language, or in .svg, for a picture of it, which
           Graphviz's own program 'dot' makes; without it, or with -, the former goes to
           standard output

Relations stand on top and the result at the foot. A thick arrow is a send with its charge and
parcels, or a route of several, with the sites on the way; along a thin one nothing is sent, and
along a dashed one the index is followed. Where 'dot' is not there, the .dot is written in place
of the .svg, and that is a fault.
";

/// By the ending of OUT.
enum Kind {
    Dot,
    Svg,
}

fn run(words: &[OsString]) -> Result<Done, Failure> {
    let words = Words::take(words, &["--rows"], &[written::OPTION])?;
    let [file] = words.just("the FILE")?;
    let out = match written::out(&words)? {
        Some(out) => Some((kind(out)?, out)),
        None => None,
    };
    let dot = dot(Given::read(file, words.has("--rows"))?)?;
    match out {
        None => Ok(Done::printing(dot)),
        Some((Kind::Dot, out)) => output::write(out, dot.as_bytes()).map(|()| Done::default()),
        Some((Kind::Svg, out)) => svg(out, &dot),
    }
}

fn kind(out: &OsStr) -> Result<Kind, Failure> {
    match Path::new(out).extension().and_then(OsStr::to_str) {
        Some("dot") => Ok(Kind::Dot),
        Some("svg") => Ok(Kind::Svg),
        _ => {
            let out = Path::new(out).display();
            Err(Failure::Usage(format!("'{out}' ends neither in .dot nor in .svg")))
        }
    }
}

fn dot(given: Given) -> Result<String, Failure> {
    let mut loaded = Loaded::load(given)?;
    match cheapest::find(&mut loaded)? {
        Cheapest::NoRoute { trials } => {
            Err(Failure::Refused(format!("no route trials {trials}: there is no plan to draw")))
        }
        Cheapest::Plan(plan) => drawn::dot(&loaded.query, &loaded.names, &plan)
            .ok_or_else(|| Failure::Fault("the plan's steps make no tree".into())),
    }
}

fn svg(out: &OsStr, dot: &str) -> Result<Done, Failure> {
    match graphviz::svg(dot) {
        Picture::Made { svg, said } => {
            output::write(out, &svg)?;
            let noted = said.lines().map(|line| format!("dot: {line}\n")).collect();
            Ok(Done { noted, ..Done::default() })
        }
        Picture::NotStarted(reason) => Err(beside(out, dot, &reason)),
        Picture::Failed(reason) => {
            Err(Failure::Fault(format!("Graphviz's program 'dot' made no picture: {reason}")))
        }
    }
}

/// The .dot is written in place of a picture that 'dot' did not start to make.
fn beside(out: &OsStr, dot: &str, reason: &str) -> Failure {
    let beside = Path::new(out).with_extension("dot");
    let outcome = match output::write(beside.as_os_str(), dot.as_bytes()) {
        Ok(()) => format!("{} was written in its place", beside.display()),
        Err(failure) => failure.reason().to_string(),
    };
    let out = Path::new(out).display();
    Failure::Fault(format!("Graphviz's program 'dot' {reason}, so {out} was not drawn; {outcome}"))
}
