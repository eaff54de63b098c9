//! What part of a plan's cost falls to each site and to each line that it uses.

use std::collections::BTreeMap;

use reference::prices;
use reference::units::Charge;

use crate::priced::{Price, Priced};

/// The joins at one site.
#[derive(Clone, Copy, Debug, Default, PartialEq, Eq)]
pub struct AtSite {
    pub joins: u64,
    pub charge: u64,
}

/// The sends over one line.
#[derive(Clone, Copy, Debug, Default, PartialEq, Eq)]
pub struct OverLine {
    pub sends: u64,
    pub bytes: u64,
    pub parcels: u64,
    pub charge: u64,
}

/// By site; those where something is joined.
pub fn of_sites(steps: &[Priced]) -> BTreeMap<usize, AtSite> {
    let mut sites = BTreeMap::<usize, AtSite>::new();
    for priced in steps {
        if let Price::Join(joining) = priced.price {
            let site = sites.entry(joining.site).or_default();
            site.joins += 1;
            site.charge += priced.price.charge().0;
        }
    }
    sites
}

/// By sender and receiver; those over which something is sent.
pub fn of_lines(steps: &[Priced]) -> BTreeMap<(usize, usize), OverLine> {
    let mut lines = BTreeMap::<(usize, usize), OverLine>::new();
    for priced in steps {
        if let Price::Send(sending) = priced.price {
            let line = lines.entry((sending.from, sending.to)).or_default();
            line.sends += 1;
            line.bytes += priced.size.0;
            line.parcels += prices::parcels(priced.size).0;
            line.charge += priced.price.charge().0;
        }
    }
    lines
}

/// To one decimal, rounded; nothing has no share of nothing.
pub fn per_cent(charge: u64, cost: Charge) -> String {
    if cost.0 == 0 {
        return "-".into();
    }
    let thousandths = (u128::from(charge) * 1000 + u128::from(cost.0 / 2)) / u128::from(cost.0);
    if thousandths == 0 && charge > 0 {
        return "<0.1%".into();
    }
    format!("{}.{}%", thousandths / 10, thousandths % 10)
}
