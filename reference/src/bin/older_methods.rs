//! `older_methods [SEED] [QUERIES]`: prints docs/OLDER-METHODS.md, with QUERIES random
//! queries for each shape, number of relations and number of sites.

use std::collections::BTreeMap;
use std::ops::RangeInclusive;

use reference::compare::arguments;
use reference::generate::queries::Shape;
use reference::generate::unequal;
use reference::limits::MOST_SIZE;
use reference::method::Method;
use reference::older::{planned, Older, Ratios};
use reference::random::Random;

const RELATIONS: RangeInclusive<usize> = 4..=9;
const SITES: RangeInclusive<usize> = 3..=8;
const DEFAULT_SEED: u64 = 1;
const DEFAULT_QUERIES: u64 = 200;

/// A row's name, such as "chain, n = 4", and the ratios of each method.
type Table = BTreeMap<String, [Ratios; Older::ALL.len()]>;

fn main() {
    let Some((seed, queries)) = arguments::seed_and_count(1, DEFAULT_SEED, DEFAULT_QUERIES) else {
        eprintln!("usage: older_methods [SEED] [QUERIES]");
        std::process::exit(2);
    };
    let (mut by_relations, mut by_sites) = (Table::new(), Table::new());
    for shape in Shape::ALL {
        for (n, s) in RELATIONS.flat_map(|n| SITES.map(move |s| (n, s))) {
            for case in 0..queries {
                let mut random = Random::for_case(seed, case * 1_000 + (10 * n + s) as u64);
                let query = unequal::query(&mut random, shape, n, s);
                let least = planned(&query, &query, Method::Rules);
                let ratios = Older::ALL.map(|older| older.ratio(&query, least));
                add(&mut by_relations, format!("{} | {n}", name(shape)), &ratios);
                add(&mut by_sites, format!("{} | {s}", name(shape)), &ratios);
            }
        }
    }
    print_head(seed, queries);
    print_table("By number of relations", "n", &by_relations);
    print_table("By number of sites", "s", &by_sites);
}

fn name(shape: Shape) -> &'static str {
    match shape {
        Shape::Chain => "chain",
        Shape::Star => "star",
        Shape::Tree => "tree",
    }
}

fn add(table: &mut Table, row: String, ratios: &[f64]) {
    let sums = table.entry(row).or_default();
    sums.iter_mut().zip(ratios).for_each(|(sum, &ratio)| sum.add(ratio));
}

fn print_head(seed: u64, queries: u64) {
    let range = |range: RangeInclusive<u64>| format!("{} to {}", range.start(), range.end());
    println!(
        "# What the older methods cost

How often, and by how much, three simpler planners are dearer than the cheapest allowed plan:

- *single operand*: one operand of each join is a single relation, as in the older method with which the paper of docs/RULES.md, 1.3, compares its own;
- *only homes*: a join is done only at the home of a relation of its two parts;
- *equal lines*: plans as if every line had the average fixed amount and the average rate, and pays the true lines.

*Dearer* is the share of queries whose plan costs more than the optimum. *Mean* and *worst* are cost over optimum, the mean over all queries of the row. In a star every join has a single relation on one side, so the first method loses nothing there.

This page is printed by the reference. To make it again:

    cd reference && cargo run --release --offline --bin older_methods {seed} {queries} > ../docs/OLDER-METHODS.md

## The queries

Seed {seed}; {queries} random queries for each shape, each n from {} to {} and each s from {} to {}. All lines are open and all sites may join; homes and the query site are drawn evenly.

| what | drawn from |
|---|---|
| size of a relation | {}, all orders of magnitude alike |
| size of a result | product of the relations' sizes over the divisors of its joins, 1 to {MOST_SIZE} |
| divisor of a join | half the smaller to twice the larger of its relations, all orders of magnitude alike |
| line fixed; line rate, for each parcel | {}; {}, evenly |
| join fixed; join rate, for each byte | {}; {}, evenly |
| index | {} relations of 100 |",
        RELATIONS.start(),
        RELATIONS.end(),
        SITES.start(),
        SITES.end(),
        range(unequal::RELATION_SIZE),
        range(unequal::LINE_FIXED),
        range(unequal::LINE_RATE),
        range(unequal::JOIN_FIXED),
        range(unequal::JOIN_RATE),
        unequal::INDEXED,
    );
}

fn print_table(title: &str, column: &str, table: &Table) {
    println!("\n## {title}\n");
    let columns = ["single operand", "only homes", "equal lines"];
    let columns = columns.map(|method| format!("{method}: dearer | mean | worst"));
    println!("| shape | {column} | {} |", columns.join(" | "));
    println!("|---|{}", "--:|".repeat(1 + 3 * columns.len()));
    for (row, ratios) in table {
        let cells = ratios.map(|ratios| {
            format!("{:.1} % | {:.3} | {:.2}", ratios.often(), ratios.mean(), ratios.worst())
        });
        println!("| {row} | {} |", cells.join(" | "));
    }
}
