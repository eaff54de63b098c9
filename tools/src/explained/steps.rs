//! The table of a plan's steps, a row for each.

use reference::names::Names;
use reference::sets;
use reference::step::Step;

use crate::explained::table::{wrapped, Side, Table};
use crate::priced::{Joining, Operand, Price, Priced, Sending};
use crate::wording::numbered;

/// Relations that are held together take so many characters of a line.
const HELD_WIDTH: usize = 17;

pub fn table(names: &Names, steps: &[Priced]) -> String {
    let mut table = Table::new(&[
        ("", Side::Right),
        ("step", Side::Left),
        ("where", Side::Left),
        ("held now", Side::Left),
        ("bytes", Side::Right),
        ("price taken apart", Side::Left),
        ("charge", Side::Right),
        ("sum", Side::Right),
    ]);
    for (place, priced) in steps.iter().enumerate() {
        let before = place.checked_sub(1).map(|before| steps[before].step);
        table.add([
            place.to_string(),
            step(names, priced.step, before),
            site(names, priced),
            wrapped(&names.set(priced.held.set), HELD_WIDTH),
            priced.size.0.to_string(),
            price(names, &priced.price),
            priced.price.charge().0.to_string(),
            priced.sum.0.to_string(),
        ]);
    }
    table.print()
}

/// Where a send leads stands in the next column; one behind another sends the same result on.
fn step(names: &Names, step: Step, before: Option<Step>) -> String {
    match (step, before) {
        (Step::Load { relation }, _) => format!("load {}", names.relation(relation)),
        (Step::Send { .. }, Some(Step::Send { .. })) => "send on".into(),
        (Step::Send { .. }, _) => "send".into(),
        (Step::Join { join }, _) => format!("join {join}"),
    }
}

fn site(names: &Names, priced: &Priced) -> String {
    match priced.price {
        Price::Send(Sending { from, to, .. }) => line(names, from, to),
        _ => format!("at {}", names.site(priced.held.site)),
    }
}

/// A line, told by its two sites.
pub fn line(names: &Names, from: usize, to: usize) -> String {
    format!("{} to {}", names.site(from), names.site(to))
}

fn price(names: &Names, price: &Price) -> String {
    match price {
        Price::Load => String::new(),
        Price::Send(Sending { fixed, rate, parcels, .. }) => {
            format!("{} + {} × {}", fixed.0, rate.0, numbered(parcels.0, "parcel"))
        }
        Price::Join(joining) => join_price(names, joining),
    }
}

/// The reads that are due, then those that are not.
fn join_price(names: &Names, joining: &Joining) -> String {
    let reads: Vec<String> = joining.read().map(|operand| operand.size.0.to_string()).collect();
    let mut text = format!(
        "{} + {} × (reads {}, result {})",
        joining.fixed.0,
        joining.rate.0,
        reads.join(" + "),
        joining.result.0
    );
    let Some(spared) = joining.spared() else {
        return text;
    };
    let relation = |operand: Operand| names.the_relation(sets::lowest(operand.held.set));
    text += &format!("\nspared: {} of {}, by its index", spared.size.0, relation(spared));
    // A join follows one index.
    if let Some(other) = joining.read().find(|operand| operand.qualifies) {
        text += &format!("\n{} is read: one index is followed", relation(other));
    }
    text
}
