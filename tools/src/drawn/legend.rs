//! What stands above the tree: the cost, and the colour of each site that the plan uses.

use std::collections::BTreeSet;

use reference::names::Names;
use reference::query::Query;

use crate::cheapest::Plan;
use crate::drawn::labels::escaped;
use crate::drawn::palette;
use crate::drawn::tree::Node;
use crate::wording::numbered;

/// So many sites stand side by side.
const MOST_COLUMNS: usize = 4;

pub fn label(query: &Query, names: &Names, plan: &Plan, nodes: &[Node]) -> String {
    let made = nodes.iter().map(|node| node.site);
    let sent = nodes.iter().flat_map(|node| &node.route).map(|sending| sending.to);
    let sites: BTreeSet<usize> = made.chain(sent).chain([query.delivery]).collect();
    let sites: Vec<usize> = sites.into_iter().collect();
    let rows = sites.len().div_ceil(MOST_COLUMNS);
    let columns = sites.len().div_ceil(rows.max(1)).max(1);
    let steps = numbered(plan.steps.len() as u64, "step");
    let title = format!(
        "<b>cost {}</b>, {steps}, to {}",
        plan.cost.0,
        escaped(&names.the_site(query.delivery))
    );
    let rows: String = sites.chunks(columns).map(|sites| row(names, sites)).collect();
    format!(
        "<<table border=\"0\" cellspacing=\"4\" cellpadding=\"3\">\
         <tr><td colspan=\"{columns}\">{title}</td></tr>{rows}</table>>"
    )
}

fn row(names: &Names, sites: &[usize]) -> String {
    let cell = |&site: &usize| {
        let (colour, name) = (palette::of_site(site), escaped(&names.the_site(site)));
        let (edge, fill) = (colour.edge, colour.fill);
        format!("<td border=\"1\" color=\"{edge}\" bgcolor=\"{fill}\">{name}</td>")
    };
    let cells: String = sites.iter().map(cell).collect();
    format!("<tr>{cells}</tr>")
}
