//! Random queries with long plans: that of the longest plan, with its sites in another order
//! and changed in a few places.

use crate::generate::lines::shuffled;
use crate::pinned_solves;
use crate::query::{Line, Query};
use crate::random::Random;
use crate::units::{Charge, Rate};

pub fn query(random: &mut Random) -> Query {
    let mut query = pinned_solves::longest_plan();
    renumber(&mut query, &shuffled(random, 8));
    for _ in 0..random.below(4) {
        change(random, &mut query);
    }
    query
}

/// Gives each site another number.
fn renumber(query: &mut Query, number: &[usize]) {
    let old = query.clone();
    for (site, &new) in number.iter().enumerate() {
        query.sites[new] = old.sites[site];
    }
    for (sender, receiver) in Query::line_ends(number.len()) {
        *query.line_mut(number[sender], number[receiver]) = *old.line(sender, receiver);
    }
    for relation in &mut query.relations {
        relation.home = number[relation.home];
    }
    query.delivery = number[query.delivery];
}

/// Another home, query site or line, or a site that may not join.
fn change(random: &mut Random, query: &mut Query) {
    let (relation, site, line) = (random.below(9), random.below(8), random.below(56));
    match random.below(5) {
        0 => query.relations[relation].home = site,
        1 => query.delivery = site,
        2 => query.sites[site].may_join = false,
        _ => {
            let fixed = random.pick(&[0, 0, 1, 1_000]);
            query.lines[line] = Line { open: true, fixed: Charge(fixed), rate: Rate(0) };
        }
    }
}
