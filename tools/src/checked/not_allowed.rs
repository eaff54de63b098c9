//! Why a send or a join is not allowed, by what is held before it.

use reference::names::Names;
use reference::query::Query;
use reference::rules::Held;
use reference::sets;
use reference::step::Step;

use crate::wording;

/// All that the step breaks; the top is held last.
pub fn reason(query: &Query, names: &Names, held: &[Held], step: Option<Step>) -> String {
    match (step, held) {
        (Some(Step::Send { .. }), []) => "nothing is held that could be sent".to_string(),
        (Some(Step::Send { to }), [.., top]) => send(names, top, to),
        (Some(Step::Join { .. }), []) => "nothing is held, and a join takes two".to_string(),
        (Some(Step::Join { .. }), [one]) => {
            format!("only {} is held, and a join takes two", wording::held(names, one))
        }
        (Some(Step::Join { join }), [.., below, top]) => {
            let apart = apart(query, names, [below, top]);
            let unlinked = unlinked(query, names, [below, top], join);
            apart.into_iter().chain(unlinked).collect::<Vec<_>>().join("; ")
        }
        (other, _) => format!("{other:?}"),
    }
}

/// To another site it is allowed over every line but a closed one.
fn send(names: &Names, top: &Held, to: usize) -> String {
    let [from, to_site] = [top.site, to].map(|site| names.the_site(site));
    let why = match top.site == to {
        true => format!("stands at {to_site} already"),
        false => format!("needs the line from {from} to {to_site}, which is closed"),
    };
    format!("the top, {}, {why}", wording::held(names, top))
}

/// Where the two do not stand at one site that may join.
fn apart(query: &Query, names: &Names, both: [&Held; 2]) -> Option<String> {
    let [below, top] = both;
    if below.site != top.site {
        let [below, top] = both.map(|held| wording::held(names, held));
        return Some(format!("{below} and {top} do not stand at one site"));
    }
    let [below, top_words] = both.map(|held| wording::relations(names, held.set));
    let site = names.the_site(top.site);
    let may_not = !query.sites[top.site].may_join;
    may_not.then(|| format!("{site}, where {below} and {top_words} stand, may not join"))
}

/// Where the join does not lead from the one to the other.
fn unlinked(query: &Query, names: &Names, both: [&Held; 2], join: usize) -> Option<String> {
    let link = query.joins()[join];
    let [below, top] = both.map(|held| held.set);
    if link.between(below, top) {
        return None;
    }
    let ends = [link.first, link.second];
    let [below_words, top_words] = [below, top].map(|set| wording::relations(names, set));
    let missing = ends.into_iter().find(|&relation| !sets::holds(below | top, relation));
    let why = match missing.map(|relation| names.the_relation(relation)) {
        Some(missing) => format!("{missing} is in neither {below_words} nor {top_words}"),
        None if link.within(top) => format!("both are in {top_words}"),
        None => format!("both are in {below_words}"),
    };
    let [first, second] = ends.map(|relation| names.the_relation(relation));
    Some(format!("join {join} links {first} and {second}, and {why}"))
}
