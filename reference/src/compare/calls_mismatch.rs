//! A list of calls on which a program and the model differ, and how it is shown.

use std::fmt;
use std::io;

use crate::hex::hex;
use crate::script::Call;
use crate::text;

/// A list of calls on which the program and the model differ.
#[derive(Clone, Debug)]
pub struct Mismatch {
    pub calls: Vec<Call>,
    /// Bytes behind the last record, which end the run.
    pub tail: Vec<u8>,
    /// Lines, each with its end.
    pub expected: Vec<String>,
    pub found: Vec<String>,
}

impl fmt::Display for Mismatch {
    fn fmt(&self, f: &mut fmt::Formatter) -> fmt::Result {
        writeln!(f, "script {}", hex(&script(&self.calls, &self.tail)))?;
        for call in &self.calls {
            writeln!(f, "  {}", describe(call))?;
            if let Call::Load { form, file } = call {
                write!(f, "{}", text::of_file(file, *form))?;
            }
        }
        write!(f, "expected:\n{}", self.expected.concat())?;
        write!(f, "found:\n{}", self.found.concat())
    }
}

/// A mismatch, if there is one; an error where the program cannot be run.
pub type Compared = io::Result<Result<(), Box<Mismatch>>>;

/// Takes calls out, many at a time and then one by one, as long as a mismatch stays.
pub fn shortest(
    mut mismatch: Mismatch,
    compare: impl Fn(&[Call], &[u8]) -> Compared,
) -> io::Result<Mismatch> {
    let mut chunk = mismatch.calls.len() / 2;
    while chunk > 0 {
        let mut from = 0;
        while from < mismatch.calls.len() {
            let mut fewer = mismatch.calls.clone();
            fewer.drain(from..(from + chunk).min(fewer.len()));
            match compare(&fewer, &mismatch.tail)? {
                Err(shorter) => mismatch = *shorter,
                Ok(()) => from += chunk,
            }
        }
        chunk /= 2;
    }
    Ok(mismatch)
}

/// The records of the calls, then the bytes behind them.
pub fn script(calls: &[Call], tail: &[u8]) -> Vec<u8> {
    let mut script: Vec<u8> = calls.iter().flat_map(|call| call.record()).collect();
    script.extend(tail);
    script
}

fn describe(call: &Call) -> String {
    match call {
        Call::Load { form, file } => {
            format!("{} of {} bytes {}", form.load_name(), file.len(), hex(file))
        }
        Call::Link(link) => format!(
            "link {} to {}, open {}, fixed {}, rate {}",
            link.sender, link.receiver, link.open, link.fixed, link.rate
        ),
        Call::Solve { cells, output } => {
            format!("solve with {cells} cells into {output} bytes")
        }
        Call::Check { plan } => format!("check {}", hex(plan)),
        Call::Room(draft) => format!(
            "room of {} relations at {} sites, joins {}",
            draft.relations,
            draft.sites,
            hex(&draft.joins)
        ),
    }
}
