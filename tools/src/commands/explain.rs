//! `fanchuki explain`: the cheapest plan as a table, its prices taken apart.

use std::ffi::OsString;

use crate::cheapest::{self, Cheapest};
use crate::commands::Command;
use crate::done::Done;
use crate::explained::{no_route, Explained};
use crate::failure::Failure;
use crate::given::Given;
use crate::proved::loaded::Loaded;
use crate::words::Words;

pub const COMMAND: Command = Command { name: "explain", help: HELP, run };

const HELP: &str = "\
prints the cheapest plan as a table: what each step holds, where, and what it costs

usage: fanchuki explain FILE [--rows]

  --rows   a packed FILE has row counts and divisors in place of sizes

A row for each step has what is held after it, its bytes, and the price taken apart:

  send   fixed + rate × parcels, of the line; a parcel is 8 bytes, and a started one counts. The
         next line of a route is 'send on', with a price of its own
  join   fixed + rate × (reads of both operands, and the result), of the site; a relation at its
         home, never sent, that has an index need not be read, and a join spares one such read

The last sum is the cost. Below the table: trials and subqueries, what each site and each line
that the plan uses has of the cost, and what the cheapest plan without it would cost. Where no
plan is allowed, 'no route trials N' is printed, and the reason.
";

fn run(words: &[OsString]) -> Result<Done, Failure> {
    let words = Words::take(words, &["--rows"], &[])?;
    let [file] = words.just("the FILE")?;
    let mut loaded = Loaded::load(Given::read(file, words.has("--rows"))?)?;
    match cheapest::find(&mut loaded)? {
        Cheapest::NoRoute { trials } => {
            let text = no_route::text(&loaded.query, &loaded.names, trials)?;
            Ok(Done { code: 1, ..Done::printing(text) })
        }
        Cheapest::Plan(plan) => {
            let explained = Explained::find(&mut loaded, plan)?;
            let Loaded { query, names, subqueries, .. } = &loaded;
            Ok(Done::printing(explained.print(query, names, *subqueries)))
        }
    }
}
