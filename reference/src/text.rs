//! A query as text, one statement a line; docs/TEXT-FORM.md describes the form, and the tool
//! `fanchuki` reads it.

use std::fmt::{self, Write};

use crate::decode;
use crate::names::Names;
use crate::query::{Line, Query, Site};
use crate::rows::RowCounts;
use crate::stated::{Form, Stated};

/// A file's query as text, or the number with which the load refuses it; for what a test
/// shows.
pub fn of_file(file: &[u8], form: Form) -> String {
    match decode::decode(file, form) {
        Ok(stated) => print(&stated, &Names::default()),
        Err(refusal) => format!("refused {}\n", refusal.number()),
    }
}

/// The text that states the query so, by these names; lines that are all alike are told in one,
/// and so are sites that have no names.
pub fn print(stated: &Stated, names: &Names) -> String {
    let query = &stated.query;
    let mut text = String::new();
    print_sites(&mut text, query, names);
    for (number, relation) in query.relations.iter().enumerate() {
        let index = if relation.index { ", indexed" } else { "" };
        let (name, home) = (names.relation(number), names.the_site(relation.home));
        put(&mut text, format_args!("relation {name} at {home}{index}"));
    }
    for (number, join) in query.joins().iter().enumerate() {
        let (first, second) = (names.relation(join.first), names.relation(join.second));
        put(&mut text, format_args!("join {number} links {first} and {second}"));
    }
    match &stated.counts {
        None => print_sizes(&mut text, query, names),
        Some(counts) => print_row_counts(&mut text, counts, names),
    }
    print_lines(&mut text, query, names);
    put(&mut text, format_args!("delivery to {}", names.the_site(query.delivery)));
    text
}

fn print_sites(text: &mut String, query: &Query, names: &Names) {
    let describe = |site: &Site| {
        let may = if site.may_join { "may join" } else { "may not join" };
        format!("{may}, fixed {}, rate {}", site.fixed.0, site.rate.0)
    };
    let [first, rest @ ..] = &query.sites[..] else {
        return;
    };
    let named = names.sites.iter().any(Option::is_some);
    if !named && !rest.is_empty() && rest.iter().all(|site| site == first) {
        put(text, format_args!("sites 0 to {} {}", rest.len(), describe(first)));
        return;
    }
    for (number, site) in query.sites.iter().enumerate() {
        put(text, format_args!("site {} {}", names.site(number), describe(site)));
    }
}

fn print_sizes(text: &mut String, query: &Query, names: &Names) {
    for (&subquery, size) in query.subqueries().iter().zip(&query.sizes) {
        put(text, format_args!("size of {} is {}", names.set(subquery), size.0));
    }
}

fn print_row_counts(text: &mut String, counts: &RowCounts, names: &Names) {
    for (relation, rows) in counts.rows.iter().enumerate() {
        put(text, format_args!("rows of {} are {rows}", names.relation(relation)));
    }
    for (join, divisor) in counts.divisors.iter().enumerate() {
        put(text, format_args!("divisor of join {join} is {divisor}"));
    }
}

fn print_lines(text: &mut String, query: &Query, names: &Names) {
    let describe = |line: &Line| {
        let open = if line.open { "open" } else { "closed" };
        format!("{open}, fixed {}, rate {}", line.fixed.0, line.rate.0)
    };
    let [first, rest @ ..] = &query.lines[..] else {
        return;
    };
    if rest.iter().all(|line| line == first) {
        put(text, format_args!("every line {}", describe(first)));
        return;
    }
    for ((sender, receiver), line) in Query::line_ends(query.sites.len()).zip(&query.lines) {
        let (sender, receiver) = (names.site(sender), names.site(receiver));
        put(text, format_args!("line {sender} to {receiver} {}", describe(line)));
    }
}

fn put(text: &mut String, statement: fmt::Arguments) {
    writeln!(text, "{statement}").expect("a string takes all");
}
