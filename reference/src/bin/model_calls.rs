//! `model_calls [METHOD] < SCRIPT`: the lines of `calls`, by the model. A method's name
//! makes it one of the planners that nearly work.

use std::io::{self, BufReader, BufWriter, Write};

use reference::compare::arguments;
use reference::planner::Planner;
use reference::script::Call;

fn main() -> io::Result<()> {
    let Some(method) = arguments::method() else {
        eprintln!("usage: model_calls [METHOD] < SCRIPT");
        std::process::exit(2);
    };
    let mut script = BufReader::new(io::stdin().lock());
    let mut output = BufWriter::new(io::stdout().lock());
    let mut planner = Planner::empty(method);
    while let Some(call) = Call::next(&mut script) {
        for line in call.run(&mut planner) {
            writeln!(output, "{line}")?;
        }
    }
    output.flush()
}
