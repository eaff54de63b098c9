//! The tables below the steps: what each site and each line has of the cost, and what the
//! cheapest plan without it costs.

use reference::names::Names;
use reference::units::Charge;

use crate::explained::shares::{per_cent, AtSite, OverLine};
use crate::explained::steps::line;
use crate::explained::table::{Side, Table};

/// A site or a line, its share, and the cost of the cheapest plan that does without it, where
/// there is one.
pub struct Part<Which, Share> {
    pub which: Which,
    pub share: Share,
    pub without: Option<Charge>,
}

pub type SitePart = Part<usize, AtSite>;
pub type LinePart = Part<(usize, usize), OverLine>;

pub fn sites(names: &Names, cost: Charge, parts: &[SitePart]) -> String {
    if parts.is_empty() {
        return "nothing is joined\n".into();
    }
    let mut table = Table::new(&[
        ("joined at", Side::Left),
        ("joins", Side::Right),
        ("charge", Side::Right),
        ("share", Side::Right),
        ("without joins there", Side::Right),
        ("more by", Side::Right),
    ]);
    for Part { which, share, without } in parts {
        let [next, more] = next_best(cost, *without);
        table.add([
            names.site(*which),
            share.joins.to_string(),
            share.charge.to_string(),
            per_cent(share.charge, cost),
            next,
            more,
        ]);
    }
    table.print()
}

pub fn lines(names: &Names, cost: Charge, parts: &[LinePart]) -> String {
    if parts.is_empty() {
        return "nothing is sent\n".into();
    }
    let mut table = Table::new(&[
        ("sent from", Side::Left),
        ("sends", Side::Right),
        ("bytes", Side::Right),
        ("parcels", Side::Right),
        ("charge", Side::Right),
        ("share", Side::Right),
        ("without that line", Side::Right),
        ("more by", Side::Right),
    ]);
    for Part { which: (from, to), share, without } in parts {
        let [next, more] = next_best(cost, *without);
        table.add([
            line(names, *from, *to),
            share.sends.to_string(),
            share.bytes.to_string(),
            share.parcels.to_string(),
            share.charge.to_string(),
            per_cent(share.charge, cost),
            next,
            more,
        ]);
    }
    table.print()
}

fn next_best(cost: Charge, without: Option<Charge>) -> [String; 2] {
    match without {
        Some(next) => [next.0.to_string(), next.0.saturating_sub(cost.0).to_string()],
        None => ["no route".into(), String::new()],
    }
}
