//! A packed file, field by field, for the words that a refused one is told with.

pub mod fields;
pub mod refused;
pub mod walk;
