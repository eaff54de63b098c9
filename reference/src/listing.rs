//! What the program `plan` prints for a file.

use std::fmt::Write;

use crate::decode;
use crate::method::Method;
use crate::solve;
use crate::stated::Form;
use crate::step::Step;

pub fn listing(file: &[u8], method: Method) -> String {
    let query = match decode::decode(file, Form::Sizes) {
        Ok(stated) => stated.query,
        Err(refusal) => return format!("refused {}\n", refusal.number()),
    };
    let trials = solve::trials(&query);
    let Some(plan) = solve::solve(&query, method) else {
        return format!("no route trials {trials}\n");
    };
    let mut text = format!("plan {} cost {} trials {trials}\n", plan.steps.len(), plan.cost.0);
    for step in plan.steps {
        let (word, argument) = match step {
            Step::Load { relation } => ("load", relation),
            Step::Send { to } => ("send", to),
            Step::Join { join } => ("join", join),
        };
        writeln!(text, "{word} {argument}").expect("a string takes all");
    }
    text
}
