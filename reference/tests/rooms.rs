//! Room: its figures and refusals as lines of the program `calls`, and its figures for every
//! tree of up to seven relations, worked out once more in another way.

use std::collections::BTreeSet;

use reference::answers;
use reference::generate::queries::{self, Shape};
use reference::generate::trees;
use reference::pinned;
use reference::pinned_rooms;
use reference::random::Random;
use reference::room::{self, Draft, Figures};
use reference::solve;
use reference::tree::Join;

const Q: [&str; 2] = ["solved 21 9 3 040100010102000300", "cells OK"];

#[test]
fn the_figures_worked_out_by_hand() {
    for (draft, figures) in pinned_rooms::worked() {
        assert_eq!(room::room(&draft), Ok(figures), "{draft:?}");
    }
    let lines = answers::lines(&pinned_rooms::lists()[0]);
    let expected = [
        "room 3 9 3",
        "room 10 10 10",
        "room 11 22 24",
        "room 45 360 960",
        "room 264 2112 8192",
        "room 1 8 0",
        "refused 2",
        "refused 2",
        "refused 3",
        "refused 4",
    ];
    assert_eq!(lines, expected);
}

#[test]
fn the_refusals_worked_out_by_hand() {
    for (draft, number) in pinned_rooms::refused() {
        let refusal = room::room(&draft).expect_err("a refusal");
        assert_eq!((refusal.number(), refusal.place()), (number, None), "{draft:?}");
    }
}

#[test]
fn one_relation_and_nine_at_every_number_of_sites() {
    let at = |s| {
        [
            format!("room 1 {s} 0"),
            format!("room 45 {} {}", 45 * s, 120 * s),
            format!("room 264 {} {}", 264 * s, 1_024 * s),
        ]
    };
    let expected: Vec<String> = (1..=8).flat_map(at).collect();
    assert_eq!(answers::lines(&pinned_rooms::longest()), expected);
}

/// Of all numbers of bytes only 2 x (n - 1) comes past 2; then 255 is out of range.
#[test]
fn the_number_of_bytes_comes_first() {
    let lines = answers::lines(&pinned_rooms::every_length());
    assert_eq!(lines.len(), 9 * 21 * 2);
    for (place, pair) in lines.chunks_exact(2).enumerate() {
        let (n, length) = (1 + place / 21, place % 21);
        let [star, out_of_range] = pair else { unreachable!() };
        if length != 2 * (n - 1) {
            assert_eq!(pair, ["refused 2", "refused 2"], "{n} relations, {length} bytes");
        } else {
            assert!(star.starts_with("room "), "{n} relations: {star}");
            let none_there = if n == 1 { star.as_str() } else { "refused 3" };
            assert_eq!(out_of_range, none_there, "{n} relations");
        }
    }
}

/// Six numbers of relations, four of them good; of five numbers of sites three are. Each is
/// tried as it is, and eight times with more than a narrower number holds.
#[test]
fn numbers_are_judged_whole() {
    let lines = answers::lines(&pinned_rooms::wide());
    assert_eq!(lines.len(), 6 * (5 * 9 + 2));
    let admitted: Vec<&String> = lines.iter().filter(|line| line.starts_with("room")).collect();
    let expected = [
        ["room 1 1 0", "room 1 3 0", "room 1 8 0"],
        ["room 3 3 1", "room 3 9 3", "room 3 24 8"],
        ["room 6 6 4", "room 6 18 12", "room 6 48 32"],
        ["room 264 264 1024", "room 264 792 3072", "room 264 2112 8192"],
    ];
    assert_eq!(admitted, expected.concat());
    assert!(lines.iter().all(|line| line.starts_with("room") || line == "refused 2"));
}

/// The star (0, 1), (0, 2), (0, 3) with each end turned to 0, 1, 2 and 3; then out of range.
#[test]
fn every_end_of_a_star_turned() {
    let (star, chain, not_reached) = ("room 11 33 36", "room 10 30 30", "refused 4");
    let expected = [
        [star, not_reached, chain, chain],
        [not_reached, star, not_reached, not_reached],
        [star, chain, not_reached, chain],
        [not_reached, not_reached, star, not_reached],
        [star, chain, chain, not_reached],
        [not_reached, not_reached, not_reached, star],
    ];
    let lines = answers::lines(&pinned_rooms::every_end());
    for (lines, expected) in lines.chunks_exact(10).zip(expected) {
        assert_eq!(lines[..4], expected);
        assert_eq!(lines[4..], ["refused 3"; 6]);
    }
    let last = ["refused 3", "refused 3", "refused 4", "refused 4", "refused 4"];
    assert_eq!(lines[120..], [&last[..], &["refused 4", "refused 4"]].concat());
}

#[test]
fn the_query_in_force_is_not_asked_and_stays() {
    let nothing = ["refused 20", "cells OK", "output OK"];
    let row_5 = ["solved 23 11 3 0501000101020202000300", "cells OK"];
    // {0, 2} where both stand for 1 + 3, with 1 for 1 + 3, and 1 is sent for 1 + 1.
    let star_of_three = ["solved 10 13 8 06010001020301010102000300", "cells OK"];
    let rooms = ["room 3 9 3", "room 11 22 24", "refused 2", "refused 3", "refused 4"];
    let others: [&[&str]; 10] = [
        &nothing,
        &["refused 1"],
        &["load 2 3"],
        &Q,
        &["check 21"],
        &["link"],
        &row_5,
        &["refused 10 2"],
        &["load 3 6"],
        &star_of_three,
    ];
    let lines = answers::lines(&pinned_rooms::between_other_calls());
    let expected: Vec<String> =
        others.iter().flat_map(|other| [&rooms[..], other].concat()).map(String::from).collect();
    assert_eq!(lines.len(), expected.len());
    for (line, expected) in lines.iter().zip(&expected) {
        assert!(line.starts_with(expected.as_str()), "{line}, not {expected}");
    }
}

/// Room tells of a query what its load and solve answer later.
#[test]
fn room_is_what_load_and_solve_answer() {
    for case in 0..500 {
        let random = &mut Random::for_case(71, case);
        let query = queries::query(random, &queries::Extent::full());
        let figures = room::room(&Draft::of(&query)).unwrap();
        assert_eq!(figures.subqueries, query.subqueries().len() as u64);
        assert_eq!(figures.cells, (query.subqueries().len() * query.sites.len()) as u64);
        assert_eq!(figures.trials, solve::trials(&query));
    }
}

/// Cayley: n^(n - 2) trees, no two of them alike.
#[test]
fn every_tree_is_there_once() {
    for (n, count) in (1..=7).zip([1, 1, 3, 16, 125, 1_296, 16_807]) {
        let ends = |join: &Join| (join.first.min(join.second), join.first.max(join.second));
        let sorted = |joins: Vec<Join>| joins.iter().map(ends).collect::<BTreeSet<_>>();
        let trees: Vec<BTreeSet<(usize, usize)>> = trees::every(n).map(sorted).collect();
        assert_eq!(trees.len(), count);
        assert!(trees.iter().all(|tree| tree.len() == n - 1));
        assert_eq!(trees.into_iter().collect::<BTreeSet<_>>().len(), count);
    }
}

/// The subqueries that have this relation and else only relations behind it, seen from where
/// it was come to; how many they are, and how many relations they have together. What lies
/// behind each join is left out, or is in with any of its own.
fn behind(joins: &[Join], relation: usize, from: Option<usize>, all: &mut [u64; 2]) -> [u64; 2] {
    let [mut sets, mut relations] = [1, 1];
    for (number, join) in joins.iter().enumerate() {
        let next = match (join.first == relation, join.second == relation) {
            (true, _) => join.second,
            (_, true) => join.first,
            _ => continue,
        };
        if Some(number) != from {
            let [more_sets, more_relations] = behind(joins, next, Some(number), all);
            relations = relations * (1 + more_sets) + sets * more_relations;
            sets *= 1 + more_sets;
        }
    }
    all[0] += sets;
    all[1] += relations;
    [sets, relations]
}

#[test]
fn the_figures_of_every_tree_counted_from_its_root() {
    let random = &mut Random::new(72);
    for (n, joins) in (1..=7).flat_map(|n| trees::every(n).map(move |joins| (n, joins))) {
        let joins = trees::turned(random, joins);
        let s = random.between(1, 8);
        let mut all = [0, 0];
        behind(&joins, random.below(n), None, &mut all);
        let [subqueries, relations] = all;
        let expected =
            Figures { subqueries, cells: subqueries * s, trials: (relations - subqueries) * s };
        assert_eq!(room::room(&Draft::new(n as u64, s, &joins)), Ok(expected), "{joins:?}");
    }
}

/// The most of docs/RULES.md, 6.4, at one site.
fn most(n: usize) -> (u64, u64) {
    let n = n as u32;
    (2u64.pow(n - 1) + u64::from(n) - 1, u64::from(n - 1) * 2u64.pow(n - 2))
}

fn at_one_site(joins: &[Join]) -> (u64, u64) {
    let figures = room::room(&Draft::new(joins.len() as u64 + 1, 1, joins)).unwrap();
    (figures.subqueries, figures.trials)
}

/// No tree has more of either, and of all trees only the stars have as many.
#[test]
fn stars_have_the_most() {
    for n in 2..=7 {
        let mut reached = 0;
        for joins in trees::every(n) {
            let (subqueries, trials) = at_one_site(&joins);
            let in_every_join =
                |relation| joins.iter().all(|join| [join.first, join.second].contains(&relation));
            let star = (0..n).any(in_every_join);
            assert!(subqueries <= most(n).0 && trials <= most(n).1, "{joins:?}");
            assert_eq!((subqueries, trials) == most(n), star, "{joins:?}");
            reached += usize::from(star);
        }
        assert_eq!(reached, if n == 2 { 1 } else { n });
    }
}

/// Of eight and nine relations the trees are too many to try; a random one has no more.
#[test]
fn nine_relations_have_at_most_264_subqueries() {
    assert_eq!(most(9), (264, 1_024));
    let random = &mut Random::new(73);
    for n in [8, 9] {
        assert_eq!(at_one_site(&pinned::star(n)), most(n));
        for _ in 0..1_000 {
            let joins = queries::joins(random, Shape::Tree, n);
            let (subqueries, trials) = at_one_site(&joins);
            assert!(subqueries <= most(n).0 && trials <= most(n).1, "{joins:?}");
        }
    }
}
