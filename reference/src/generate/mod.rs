//! Random queries, damaged files, plans to check and lists of calls.

pub mod amounts;
pub mod calls;
pub mod damage;
pub mod far;
pub mod files;
pub mod lines;
pub mod links;
pub mod plans;
pub mod queries;
pub mod rooms;
pub mod rows;
pub mod standing;
pub mod tours;
pub mod trees;
pub mod unequal;
