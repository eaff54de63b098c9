//! What a send and a join cost.

use crate::limits::PARCEL;
use crate::query::{Line, Site};
use crate::units::{Bytes, Charge, Parcels};

/// The parcels that are started to carry a size: the last one need not be full.
pub fn parcels(size: Bytes) -> Parcels {
    Parcels(size.0.div_ceil(PARCEL))
}

/// Sending a result of this size over the line. The fixed amount is due for no parcel too.
pub fn send(line: &Line, size: Bytes) -> Charge {
    line.fixed + line.rate * parcels(size)
}

/// An operand of a join; whether it qualifies, that is, its index can be followed there.
#[derive(Clone, Copy, Debug, PartialEq, Eq)]
pub struct Operand {
    pub size: Bytes,
    pub qualifies: bool,
}

/// What a join reads of its operands. It follows one index: of two that qualify the larger is
/// spared, and the smaller is read.
pub fn reads([one, other]: [Operand; 2]) -> Bytes {
    match (one.qualifies, other.qualifies) {
        (true, true) => one.size.min(other.size),
        (true, false) => other.size,
        (false, true) => one.size,
        (false, false) => one.size + other.size,
    }
}

/// Joining at the site: what is read of the operands, and the result's size.
pub fn join(site: &Site, reads: Bytes, together: Bytes) -> Charge {
    site.fixed + site.rate * (reads + together)
}
