//! The three units. Bytes, parcels and charge units are never added; only a rate turns
//! bytes or parcels into charge units.

use std::iter::Sum;
use std::ops::{Add, Mul};

/// A size.
#[derive(Clone, Copy, Debug, PartialEq, Eq, PartialOrd, Ord, Hash)]
pub struct Bytes(pub u64);

/// Parcels of the carrier's: what a line charges for.
#[derive(Clone, Copy, Debug, PartialEq, Eq)]
pub struct Parcels(pub u64);

/// A cost, in charge units.
#[derive(Clone, Copy, Debug, PartialEq, Eq, PartialOrd, Ord, Hash)]
pub struct Charge(pub u64);

/// Charge units for each byte of a join, for each parcel of a line.
#[derive(Clone, Copy, Debug, PartialEq, Eq)]
pub struct Rate(pub u64);

impl Add for Bytes {
    type Output = Bytes;
    fn add(self, other: Bytes) -> Bytes {
        Bytes(self.0 + other.0)
    }
}

impl Add for Charge {
    type Output = Charge;
    fn add(self, other: Charge) -> Charge {
        Charge(self.0 + other.0)
    }
}

impl Sum for Charge {
    fn sum<I: Iterator<Item = Charge>>(charges: I) -> Charge {
        charges.fold(Charge(0), Add::add)
    }
}

impl Mul<Bytes> for Rate {
    type Output = Charge;
    fn mul(self, size: Bytes) -> Charge {
        Charge(self.0 * size.0)
    }
}

impl Mul<Parcels> for Rate {
    type Output = Charge;
    fn mul(self, parcels: Parcels) -> Charge {
        Charge(self.0 * parcels.0)
    }
}
