//! The text form of a query or a draft, one statement a line, read; docs/TEXT-FORM.md describes
//! it, and the reference prints it.
//!
//! A line is taken apart into words (`scan`), and these are read as a statement (`read`,
//! `terms`). When all are read, what they declare and call is put together (`gathered`), and
//! then it is seen what is missing (`whole`). Every fault on the way is kept, and the text is
//! taken where there is none.

mod called;
mod fault;
mod gathered;
mod joins;
mod once;
mod ordered;
mod read;
mod reading;
mod refer;
mod register;
pub mod scan;
mod sizing;
mod statement;
mod terms;
mod vocabulary;
mod whole;

pub use fault::{decoded, refused, Fault, Faults, Place};
pub use vocabulary::{is_name, is_number};

use reference::names::Names;
use reference::room::Draft;
use reference::stated::Stated;

use gathered::Gathered;

/// A query as a text states it, and what the text calls its sites and relations.
#[derive(Clone, Debug, PartialEq, Eq)]
pub struct Named {
    pub stated: Stated,
    pub names: Names,
}

/// The query that the text states, by sizes or by rows and divisors; or every fault of the text,
/// in order of place.
pub fn parse(text: &str) -> Result<Named, Vec<Fault>> {
    taken(text, |gathered, faults| {
        let stated = gathered.stated(faults)?;
        Some(Named { stated, names: gathered.names.clone() })
    })
}

/// What room is told of the text, which may leave out all that room does not ask for.
pub fn draft(text: &str) -> Result<Draft, Vec<Fault>> {
    taken(text, |gathered, faults| gathered.draft(faults))
}

fn taken<T>(
    text: &str,
    whole: impl FnOnce(&mut Gathered, &mut Faults) -> Option<T>,
) -> Result<T, Vec<Fault>> {
    let mut faults = Faults::default();
    let lines = (1..).zip(scan::lines(text));
    let words = lines.map(|(number, line)| scan::words(number, line));
    let statements: Vec<_> =
        words.filter_map(|words| read::statement(&words, &mut faults)).collect();
    let mut gathered = gathered::gather(&statements, &mut faults);
    match whole(&mut gathered, &mut faults) {
        Some(taken) if faults.is_empty() => Ok(taken),
        _ => Err(faults.in_order()),
    }
}
