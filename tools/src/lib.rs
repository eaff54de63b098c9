//! The tool `fanchuki`: a query planned, explained and drawn for people.
//!
//! It plans, links and checks by the proved programs (`proved`). The reference's
//! model serves it for words, for prices taken apart and for drawings only.

pub mod cheapest;
pub mod checked;
pub mod commands;
pub mod done;
pub mod drawn;
pub mod explained;
pub mod failure;
pub mod given;
pub mod listing;
pub mod near;
pub mod output;
pub mod packed;
pub mod priced;
pub mod proved;
pub mod text;
pub mod whatif;
pub mod width;
pub mod wording;
pub mod words;
pub mod written;
