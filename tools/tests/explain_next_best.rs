//! What the next best would have been, held to the model, over random queries.

mod common;

use common::proved::{put, random, running};
use fanchuki::cheapest::{self, Cheapest};
use fanchuki::explained::Explained;
use reference::method::Method;
use reference::query::Query;
use reference::solve;
use reference::units::Charge;

const SEED: u64 = 73;

#[test]
fn the_next_best_is_the_models() {
    let mut loaded = running();
    let (mut lines, mut sites, mut dearer, mut none) = (0, 0, 0, 0);
    for case in 0..600 {
        put(&mut loaded, random(SEED, case));
        let Ok(Cheapest::Plan(plan)) = cheapest::find(&mut loaded) else { continue };
        let explained = Explained::find(&mut loaded, plan.clone()).expect("an explanation");
        for part in &explained.lines {
            let mut other = loaded.query.clone();
            other.line_mut(part.which.0, part.which.1).open = false;
            assert_eq!(part.without, cost(&other), "case {case}, line {:?}", part.which);
            lines += 1;
            dearer += u64::from(part.without.is_some_and(|next| next > plan.cost));
            none += u64::from(part.without.is_none());
        }
        for part in &explained.sites {
            let mut other = loaded.query.clone();
            other.sites[part.which].may_join = false;
            assert_eq!(part.without, cost(&other), "case {case}, site {}", part.which);
            sites += 1;
        }
        parts_make_the_whole(&explained);
        assert_eq!(cheapest::find(&mut loaded), Ok(Cheapest::Plan(plan)), "case {case}");
    }
    assert!(lines > 500 && sites > 300, "{lines} {sites}");
    assert!(dearer > 100 && none > 50, "{dearer} {none}");
}

fn cost(query: &Query) -> Option<Charge> {
    solve::solve(query, Method::Rules).map(|plan| plan.cost)
}

/// Every charge falls to one site or one line.
fn parts_make_the_whole(explained: &Explained) {
    let sites: u64 = explained.sites.iter().map(|part| part.share.charge).sum();
    let lines: u64 = explained.lines.iter().map(|part| part.share.charge).sum();
    assert_eq!(sites + lines, explained.plan.cost.0);
}
