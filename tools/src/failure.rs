//! Why a subcommand does not do what it was asked to.

use std::fmt;

/// What is said on standard error, by its exit code.
#[derive(Clone, Debug, PartialEq, Eq)]
pub enum Failure {
    /// The query, the plan or the draft is refused: 1.
    Refused(String),
    /// The command line can't be carried out as it stands: 2.
    Usage(String),
    /// Something failed that was asked for rightly: 3.
    Fault(String),
}

impl Failure {
    pub fn code(&self) -> u8 {
        match self {
            Failure::Refused(_) => 1,
            Failure::Usage(_) => 2,
            Failure::Fault(_) => 3,
        }
    }

    pub fn reason(&self) -> &str {
        match self {
            Failure::Refused(reason) | Failure::Usage(reason) | Failure::Fault(reason) => reason,
        }
    }
}

/// A refusal begins with the place or the number that it tells; before all else stands who says
/// it.
impl fmt::Display for Failure {
    fn fmt(&self, f: &mut fmt::Formatter) -> fmt::Result {
        match self {
            Failure::Refused(reason) => write!(f, "{reason}"),
            Failure::Usage(reason) | Failure::Fault(reason) => write!(f, "fanchuki: {reason}"),
        }
    }
}
