//! `fanchuki check`: a plan that anybody wrote, judged by the proved check.

use std::ffi::{OsStr, OsString};

use reference::names::Names;

use crate::checked::plan_text::{self, PlanText};
use crate::checked::verdict;
use crate::commands::Command;
use crate::done::Done;
use crate::failure::Failure;
use crate::given::{self, Given};
use crate::proved::loaded::Loaded;
use crate::text;
use crate::words::Words;

pub const COMMAND: Command = Command { name: "check", help: HELP, run };

const HELP: &str = "\
judges a plan: accepted at its cost, or refused at a step and why

usage: fanchuki check FILE PLAN [--rows]

  PLAN     a plan as text or in bytes, told apart by itself; - is standard input,
           where FILE is not
  --rows   a packed FILE has row counts and divisors in place of sizes

A plan as text has a step a line: 'load RELATION', 'send SITE' or 'send to SITE', and
'join NUMBER', by the names that FILE gives or by the numbers; or two numbers, the kind (1 load,
2 send, 3 join) and the argument. '#' begins a comment. The heading that 'fanchuki plan' prints
may stand first and is passed over, so this judges the cheapest plan:

  fanchuki plan q.txt | fanchuki check q.txt -

Every fault of the text is told with line and column. A number that the query does not have is
no fault of the text: the check refuses it with 8. Steps are counted from 0.
";

fn run(words: &[OsString]) -> Result<Done, Failure> {
    let words = Words::take(words, &["--rows"], &[])?;
    let [file, plan] = words.just("the FILE or the PLAN")?;
    if file == "-" && plan == "-" {
        return Err(Failure::Usage("not both FILE and PLAN come from standard input".into()));
    }
    let mut loaded = Loaded::load(Given::read(file, words.has("--rows"))?)?;
    let plan = read(plan, &loaded.names)?;
    verdict::verdict(&mut loaded, &plan)
}

/// A plan in bytes has no lines.
fn read(name: &OsStr, names: &Names) -> Result<PlanText, Failure> {
    let bytes = given::read(name)?;
    if given::is_packed(&bytes) {
        return Ok(PlanText { plan: bytes, lines: Vec::new() });
    }
    let shown = given::shown(name);
    plan_text::parse(&text::decoded(&bytes, &shown)?, names)
        .map_err(|faults| text::refused(&shown, &bytes, &faults))
}
