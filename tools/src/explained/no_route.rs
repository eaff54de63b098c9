//! Why a query has no route, in words.
//!
//! A result may be sent on and on, so it gets wherever open lines lead. Several relations make a
//! plan just where a site that may join is reached from every home, and the query site from
//! there: all can be joined at that one, and the last join of any plan is at such a site.

use reference::names::Names;
use reference::query::Query;

use crate::failure::Failure;
use crate::listing;

/// The heading, and below it the reasons. That there is a route after all is told as a fault.
pub fn text(query: &Query, names: &Names, trials: u64) -> Result<String, Failure> {
    match &reasons(query, names)[..] {
        [] => Err(Failure::Fault("solve answers no route, and the tool finds one".into())),
        reasons => Ok(format!("{}{}\n", listing::no_route(trials), reasons.join("\n"))),
    }
}

/// Each is enough by itself; none where there is a route.
pub fn reasons(query: &Query, names: &Names) -> Vec<String> {
    match query.relations.len() {
        1 => single(query, names).into_iter().collect(),
        _ => of_several(query, names),
    }
}

/// One relation goes to the query site as it is.
fn single(query: &Query, names: &Names) -> Option<String> {
    let home = query.relations.first()?.home;
    if reached(query, home).contains(&query.delivery) {
        return None;
    }
    let [relation, home, site] =
        [names.the_relation(0), names.the_site(home), names.the_site(query.delivery)];
    Some(format!("{relation} stands at {home}, and no open lines lead from there to {site}"))
}

fn of_several(query: &Query, names: &Names) -> Vec<String> {
    let may_join = |&site: &usize| query.sites[site].may_join;
    let joining: Vec<usize> = (0..query.sites.len()).filter(may_join).collect();
    if joining.is_empty() {
        return vec!["no site may join".into()];
    }
    let delivers = |&site: &usize| reached(query, site).contains(&query.delivery);
    let last: Vec<usize> = joining.into_iter().filter(delivers).collect();
    if last.is_empty() {
        let site = names.the_site(query.delivery);
        return vec![format!(
            "the result cannot come to {site}: it may not join, and no open lines lead there from \
             a site that may"
        )];
    }
    let relations = 0..query.relations.len();
    let stuck: Vec<String> =
        relations.filter_map(|number| relation(query, names, number, &last)).collect();
    match stuck[..] {
        [] => apart(query, names, &last).into_iter().collect(),
        _ => stuck,
    }
}

/// Why it comes to none of these sites, at which a last join may be.
fn relation(query: &Query, names: &Names, number: usize, last: &[usize]) -> Option<String> {
    let home = query.relations[number].home;
    let reached = reached(query, home);
    if reached.iter().any(|site| last.contains(site)) {
        return None;
    }
    let joins = reached.iter().any(|&site| query.sites[site].may_join);
    let [relation, home, site] =
        [names.the_relation(number), names.the_site(home), names.the_site(query.delivery)];
    Some(if !joins {
        format!(
            "{relation} cannot be joined: its home, {home}, may not join, and no open lines lead \
             from there to a site that may"
        )
    } else if reached.contains(&query.delivery) {
        format!("{relation} can be joined only where no open lines lead on to {site}")
    } else {
        format!(
            "{relation} cannot get from its home, {home}, to {site}, alone or joined: no open \
             lines lead there"
        )
    })
}

/// Where none of these sites is reached from every home.
fn apart(query: &Query, names: &Names, last: &[usize]) -> Option<String> {
    let reached: Vec<Vec<usize>> =
        query.relations.iter().map(|relation| reached(query, relation.home)).collect();
    let all_come = |site: &usize| reached.iter().all(|reached| reached.contains(site));
    let site = names.the_site(query.delivery);
    (!last.iter().any(all_come)).then(|| {
        format!(
            "the relations do not all come together: no site that may join, and from which open \
             lines lead to {site}, is reached from every home"
        )
    })
}

/// The sites to which open lines lead from this one, and itself.
fn reached(query: &Query, from: usize) -> Vec<usize> {
    let mut reached = vec![from];
    let mut next = 0;
    while let Some(&site) = reached.get(next) {
        next += 1;
        let more = (0..query.sites.len()).filter(|&to| !reached.contains(&to));
        let more: Vec<usize> = more.filter(|&to| query.line(site, to).open).collect();
        reached.extend(more);
    }
    reached
}
