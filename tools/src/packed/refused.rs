//! Why a packed file is refused, in words: the section, the field, where it stands and what is
//! in it.

use std::fmt;

use reference::decode;
use reference::refusal::Refusal;
use reference::stated::Form;

use crate::given;
use crate::packed::walk;

#[derive(Clone, Debug, PartialEq, Eq)]
pub struct RefusedFile {
    pub number: u64,
    pub reason: String,
}

impl RefusedFile {
    pub fn new(refusal: Refusal, reason: String) -> RefusedFile {
        RefusedFile { number: refusal.number(), reason }
    }

    /// The file that is refused so. The words come from a walk of its own over the fields; where
    /// that ends otherwise they say so.
    pub fn find(file: &[u8], form: Form, refusal: Refusal) -> RefusedFile {
        let reason = match walk::walk(file, form) {
            Err(found) if found.number == refusal.number() => found.reason,
            Err(found) => format!("the tool's words are for another refusal, {found}"),
            Ok(()) => "the tool finds nothing wrong with it".to_string(),
        };
        let meant = given::not_a_text(file).map_or_else(String::new, |why| format!("\n{why}"));
        RefusedFile::new(refusal, reason + other_form(file, form) + &meant)
    }
}

/// Nothing in a file says which form it has, so the other one may have been meant.
fn other_form(file: &[u8], form: Form) -> &'static str {
    let reads = |other| decode::decode(file, other).is_ok();
    match form {
        Form::Sizes if reads(Form::Rows) => "\nas a file with row counts it is right: --rows",
        Form::Rows if reads(Form::Sizes) => "\nas a file with sizes it is right: without --rows",
        _ => "",
    }
}

impl fmt::Display for RefusedFile {
    fn fmt(&self, f: &mut fmt::Formatter) -> fmt::Result {
        write!(f, "refused {}: {}", self.number, self.reason)
    }
}
