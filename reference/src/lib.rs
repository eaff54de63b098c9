//! The outside tests of Fanchuki, written from the rules alone (docs/RULES.md).
//!
//! Read in this order: `query` and `prices` (what is planned), `rules` (the plan
//! rules), `exhaustive` (the cheapest allowed plan by searching those rules),
//! `routes` (sends one after the other), `tables` (the two tables), `rows` (sizes from
//! row counts), `planner` and `room` (the calls). `generate` makes queries, files, plans
//! and call lists; `compare` holds built programs to the model.

pub mod answers;
pub mod c_call;
pub mod carriage;
pub mod check;
pub mod compare;
pub mod decode;
pub mod encode;
pub mod exhaustive;
pub mod generate;
pub mod hex;
pub mod limits;
pub mod listing;
pub mod method;
pub mod names;
pub mod older;
pub mod pinned;
pub mod pinned_calls;
pub mod pinned_indexes;
pub mod pinned_rooms;
pub mod pinned_route_calls;
pub mod pinned_routes;
pub mod pinned_row_calls;
pub mod pinned_rows;
pub mod pinned_solves;
pub mod planner;
pub mod prices;
pub mod query;
pub mod random;
pub mod refusal;
pub mod room;
pub mod routes;
pub mod rows;
pub mod rules;
pub mod script;
pub mod sets;
pub mod solve;
pub mod stated;
pub mod step;
pub mod tables;
pub mod text;
pub mod tree;
pub mod units;
pub mod wrong_routes;
