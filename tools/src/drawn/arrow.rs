//! The arrow from a result to where it is used, its label in its course, so that no arrow runs
//! over a label.

use reference::names::Names;

use crate::drawn::labels::{escaped, label};
use crate::drawn::palette;
use crate::drawn::tree::Node;
use crate::priced::Sending;
use crate::wording::numbered;

const SENT: &str = "penwidth=1.8, color=\"#333333\"";
const SPARED: &str = "style=dashed, color=\"#777777\"";
const STAYS: &str = "color=\"#777777\"";
const TAG: &str = "style=\"filled,rounded\", fillcolor=white, color=\"#333333\", fontsize=10.5, \
                   margin=\"0.06,0.04\", penwidth=0.8";
const WORDS: &str = "shape=plain, style=solid, fontsize=10.5";

/// The sends of a route share a tag with their prices and the sites on the way; a result that
/// stays has as long an arrow without one.
pub fn arrow(names: &Names, nodes: &[Node], from: usize, to: &str) -> String {
    let node = &nodes[from];
    if node.spared {
        let words = label(&["read spared".into()]);
        return tagged(from, to, SPARED, &format!("label={words}, {WORDS}"));
    }
    match &node.route[..] {
        [] => format!("  n{from} -> {to} [minlen=2, {STAYS}]\n"),
        route => tagged(from, to, SENT, &format!("label=<{}>, {TAG}", tag(names, route))),
    }
}

/// Each send with its charge, the site between two of them, and the parcels of all.
fn tag(names: &Names, route: &[Sending]) -> String {
    let sends = route.iter().enumerate().map(|(place, sending)| {
        let send = format!("<b>send: {}</b>", sending.charge().0);
        match place {
            0 => send,
            _ => format!("{}<br/>{send}", station(names, sending.from)),
        }
    });
    let sends: Vec<String> = sends.collect();
    let parcels = route.first().map_or(0, |sending| sending.parcels.0);
    format!("{}<br/>{}", sends.join("<br/>"), numbered(parcels, "parcel"))
}

/// A site that is passed, in its colour.
fn station(names: &Names, site: usize) -> String {
    let (colour, name) = (palette::of_site(site).edge, escaped(&names.the_site(site)));
    format!("<font color=\"{colour}\">by way of {name}</font>")
}

fn tagged(from: usize, to: &str, style: &str, tag: &str) -> String {
    format!(
        "  t{from} [{tag}]\n  n{from} -> t{from} [arrowhead=none, {style}]\n  \
         t{from} -> {to} [{style}]\n"
    )
}
