//! The two tables of the rules: Delivered and Joined, each defined by the other
//! over fewer relations.

use crate::carriage::Carriage;
use crate::method::Method;
use crate::prices::Operand;
use crate::query::Query;
use crate::sets::{self, Set};
use crate::tree;
use crate::units::Charge;

/// A cost or none.
pub type Cost = Option<Charge>;

/// A cost and the site k (of Delivered) or join e (of Joined) that gives it.
#[derive(Clone, Copy, Debug)]
pub struct Entry {
    pub cost: Cost,
    pub by: usize,
}

pub struct Tables<'query> {
    pub query: &'query Query,
    pub method: Method,
    /// By subquery number, then site; Joined is empty for a single relation.
    delivered: Vec<Vec<Entry>>,
    joined: Vec<Vec<Entry>>,
}

impl<'query> Tables<'query> {
    pub fn fill(query: &'query Query, method: Method) -> Self {
        let numbers = 1 << query.relations.len();
        let (delivered, joined) = (vec![Vec::new(); numbers], vec![Vec::new(); numbers]);
        let mut tables = Tables { query, method, delivered, joined };
        let mut smaller_first = query.subqueries().to_vec();
        // Equal sizes next to each other, since they take the same routes.
        smaller_first.sort_by_key(|&subquery| (sets::count(subquery), query.size(subquery)));
        let mut carriage = Carriage::of(query, method, smaller_first[0]);
        for subquery in smaller_first {
            if !carriage.suits(method, query.size(subquery)) {
                carriage = Carriage::of(query, method, subquery);
            }
            tables.fill_subquery(subquery, &carriage);
        }
        tables
    }

    pub fn delivered(&self, subquery: Set, to: usize) -> Entry {
        self.delivered[usize::from(subquery)][to]
    }

    pub fn joined(&self, subquery: Set, at: usize) -> Entry {
        self.joined[usize::from(subquery)][at]
    }

    fn fill_subquery(&mut self, subquery: Set, carriage: &Carriage) {
        let place = usize::from(subquery);
        let sites = 0..self.query.sites.len();
        if sets::count(subquery) == 1 {
            let home = self.query.relations[sets::lowest(subquery)].home;
            let from_home = |to| Entry { cost: carriage.cost(home, to), by: home };
            self.delivered[place] = sites.map(from_home).collect();
        } else {
            let splits = self.splits(subquery);
            let joined = |at| self.joined_at(subquery, &splits, at);
            self.joined[place] = sites.clone().map(joined).collect();
            let delivered = |to| self.delivered_at(subquery, carriage, to);
            self.delivered[place] = sites.map(delivered).collect();
        }
    }

    /// The joins of the subquery that are tried, with the two parts of each.
    fn splits(&self, subquery: Set) -> Vec<(usize, Set, Set)> {
        let joins = self.query.joins();
        let inside = (0..joins.len()).filter(|&join| joins[join].within(subquery));
        let split = |join| {
            let (first, other) = tree::parts(joins, subquery, join);
            (join, first, other)
        };
        let tried = |&(_, first, other): &(usize, Set, Set)| {
            self.method != Method::SingleOperand
                || sets::count(first) == 1
                || sets::count(other) == 1
        };
        inside.map(split).filter(tried).collect()
    }

    /// Joined(S, k).
    fn joined_at(&self, subquery: Set, splits: &[(usize, Set, Set)], at: usize) -> Entry {
        let mut best = Entry { cost: None, by: splits[0].0 };
        if !self.may_join(subquery, at) {
            return best;
        }
        for &(join, first, other) in splits {
            let (site, together) = (&self.query.sites[at], self.query.size(subquery));
            let price = self.method.join(site, self.operands([first, other], at), together);
            let parts = self.sum(self.delivered(first, at).cost, self.delivered(other, at).cost);
            let cost = self.sum(parts, Some(price));
            if self.wins(cost, best.cost, Method::HighestJoin) {
                best = Entry { cost, by: join };
            }
        }
        best
    }

    /// Delivered(S, t) of two relations or more.
    fn delivered_at(&self, subquery: Set, carriage: &Carriage, to: usize) -> Entry {
        let mut best = Entry { cost: None, by: 0 };
        let asked_first = (self.method == Method::AskedSiteFirst).then_some(to);
        for at in asked_first.into_iter().chain(0..self.query.sites.len()) {
            let joined = self.joined(subquery, at).cost;
            let cost = self.sum(joined, carriage.cost(at, to));
            let sends = |at| carriage.route(at, to).map(|route| route.sends);
            let fewer_sends = cost == best.cost && sends(at) < sends(best.by);
            if self.wins(cost, best.cost, Method::HighestSite)
                || self.method == Method::FewestSendsSite && fewer_sends
            {
                best = Entry { cost, by: at };
            }
        }
        best
    }

    /// Two parts that were delivered to the site, as the operands of a join there: one that has
    /// its index there was not sent.
    fn operands(&self, parts: [Set; 2], at: usize) -> [Operand; 2] {
        let qualifies = |part| self.index_at(part) == Some(at);
        let sent_too = match self.method {
            Method::IndexAfterSend => true,
            Method::SentBesideAnother => parts.into_iter().any(qualifies),
            _ => false,
        };
        parts.map(|part| Operand {
            size: self.query.size(part),
            qualifies: qualifies(part) || sent_too && self.index_at(part).is_some(),
        })
    }

    /// The home of a single relation that has an index.
    fn index_at(&self, part: Set) -> Option<usize> {
        let relation = self.query.relations[sets::lowest(part)];
        (sets::count(part) == 1 && relation.index).then_some(relation.home)
    }

    fn may_join(&self, subquery: Set, at: usize) -> bool {
        let homes = || sets::members(subquery).any(|r| self.query.relations[r].home == at);
        self.query.sites[at].may_join && (self.method != Method::OnlyHomes || homes())
    }

    /// Any sum with none is none.
    fn sum(&self, one: Cost, other: Cost) -> Cost {
        if self.method == Method::WrappingNone {
            return wrapping_sum(one, other);
        }
        Some(one? + other?)
    }

    /// A later candidate wins only if it is cheaper; none is above every number.
    fn wins(&self, candidate: Cost, best: Cost, at_a_tie: Method) -> bool {
        match (candidate, best) {
            (None, _) => false,
            (Some(_), None) => true,
            (Some(candidate), Some(best)) => {
                candidate < best || candidate == best && self.method == at_a_tie
            }
        }
    }
}

/// The mistake of a planner that has the largest number for none.
fn wrapping_sum(one: Cost, other: Cost) -> Cost {
    let number = |cost: Cost| cost.map_or(u64::MAX, |charge| charge.0);
    let sum = number(one).wrapping_add(number(other));
    (sum != u64::MAX).then_some(Charge(sum))
}
