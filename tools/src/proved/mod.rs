//! The proved programs: where they stand, their answers, and a query in force in one.

pub mod answers;
pub mod calls;
pub mod loaded;
pub mod programs;
