//! A plan drawn as a tree in Graphviz's language: relations on top, the whole result at the
//! foot, a colour for each site, an arrow with its prices for each route of sends.

pub mod arrow;
pub mod graphviz;
pub mod labels;
pub mod legend;
pub mod palette;
pub mod tree;

use std::iter;

use reference::names::Names;
use reference::query::Query;

use crate::cheapest::Plan;
use crate::drawn::arrow::arrow;
use crate::drawn::labels::label;
use crate::drawn::tree::{Made, Node};
use crate::explained::table::wrapped;
use crate::wording::numbered;

/// A join's relations take so many characters of a line.
const LINE_WIDTH: usize = 18;

/// A page is some 17 cm wide. So drawn, eight relations side by side with sizes and charges of
/// six digits fit there with letters of seven points.
const HEAD: &str =
    "  graph [rankdir=TB, labelloc=t, ordering=in, nodesep=0.15, ranksep=0.14, margin=0.1,
         fontname=\"Helvetica,Arial,sans-serif\", fontsize=12]
  node [shape=box, style=filled, margin=\"0.07,0.06\", height=0.3, penwidth=1.2,
        fontname=\"Helvetica,Arial,sans-serif\", fontsize=11]
  edge [arrowsize=0.7]
";

/// Nothing where the steps are no plan.
pub fn dot(query: &Query, names: &Names, plan: &Plan) -> Option<String> {
    let nodes = tree::nodes(&plan.steps)?;
    let (whole, last) = nodes.iter().enumerate().next_back()?;
    let mut text = format!("digraph plan {{\n{HEAD}");
    text += &format!("  label={}\n\n", legend::label(query, names, plan, &nodes));
    for (number, node) in nodes.iter().enumerate() {
        text += &format!("  n{number} {}\n", box_of(query, names, node));
    }
    text += &format!("  result {}\n\n", result(query, names, plan, last));
    for (number, node) in nodes.iter().enumerate() {
        if let Made::Join { operands, .. } = node.made {
            for operand in operands {
                text += &arrow(names, &nodes, operand, &format!("n{number}"));
            }
        }
    }
    text += &arrow(names, &nodes, whole, "result");
    Some(text + "}\n")
}

fn box_of(query: &Query, names: &Names, node: &Node) -> String {
    let (at, bytes) = (format!("at {}", names.the_site(node.site)), bytes(node));
    let (lines, style) = match node.made {
        Made::Relation(relation) => {
            let mut lines = vec![names.the_relation(relation), at, bytes];
            if query.relations[relation].index {
                lines.push("indexed".into());
            }
            (lines, "filled")
        }
        Made::Join { join, .. } => {
            let mut lines = join_lines(query, names, join);
            lines.extend([at, format!("costs {}", node.charge.0), bytes]);
            (lines, "filled,rounded")
        }
    };
    coloured(node.site, &lines, &format!("style=\"{style}\""))
}

/// The join with its two relations, in as many lines as these need.
fn join_lines(query: &Query, names: &Names, join: usize) -> Vec<String> {
    let ends = query.joins()[join];
    let [first, second] = [ends.first, ends.second].map(|relation| names.relation(relation));
    let one_line = format!("join {join} ({first}, {second})");
    if one_line.chars().count() <= LINE_WIDTH {
        return vec![one_line];
    }
    let both = wrapped(&format!("{first}, {second}"), LINE_WIDTH);
    let both = both.lines().map(str::to_string);
    iter::once(format!("join {join}")).chain(both).collect()
}

/// Where the whole result is wanted.
fn result(query: &Query, names: &Names, plan: &Plan, last: &Node) -> String {
    let lines = [
        format!("query site: {}", names.the_site(query.delivery)),
        format!("whole result, {}", bytes(last)),
        format!("total cost {}", plan.cost.0),
    ];
    coloured(query.delivery, &lines, "peripheries=2")
}

fn coloured(site: usize, lines: &[String], more: &str) -> String {
    let colour = palette::of_site(site);
    let (fill, edge) = (colour.fill, colour.edge);
    format!("[label={}, fillcolor=\"{fill}\", color=\"{edge}\", {more}]", label(lines))
}

fn bytes(node: &Node) -> String {
    numbered(node.size.0, "byte")
}
