//! The plan rules: a stack of held results, and what a step does to it.

use crate::prices::{self, Operand};
use crate::query::Query;
use crate::sets::{self, Set};
use crate::step::Step;
use crate::units::Charge;

/// How a held result was made.
#[derive(Clone, Copy, Debug, PartialEq, Eq, PartialOrd, Ord, Hash)]
pub enum Origin {
    Bare,
    Sent,
    Joined,
}

#[derive(Clone, Copy, Debug, PartialEq, Eq, PartialOrd, Ord, Hash)]
pub struct Held {
    pub set: Set,
    pub site: usize,
    pub origin: Origin,
}

impl Held {
    /// Its index can be followed: it has one, and is a bare relation, which stands at its home.
    pub fn qualifies(&self, query: &Query) -> bool {
        self.origin == Origin::Bare && query.relations[sets::lowest(self.set)].index
    }

    fn operand(&self, query: &Query) -> Operand {
        Operand { size: query.size(self.set), qualifies: self.qualifies(query) }
    }
}

/// Which rule a step breaks.
#[derive(Clone, Copy, Debug, PartialEq, Eq)]
pub enum Broken {
    LoadedBefore,
    SendNotAllowed,
    JoinNotAllowed,
}

/// The held results, the top last. No relation is ever let go, so those loaded
/// before are the ones held.
#[derive(Clone, Debug, Default, PartialEq, Eq, PartialOrd, Ord, Hash)]
pub struct Stack {
    pub held: Vec<Held>,
}

impl Stack {
    /// Does one step and gives its cost; a broken rule leaves the stack as it was.
    pub fn step(&mut self, query: &Query, step: Step) -> Result<Charge, Broken> {
        match step {
            Step::Load { relation } => self.load(query, relation).ok_or(Broken::LoadedBefore),
            Step::Send { to } => self.send(query, to).ok_or(Broken::SendNotAllowed),
            Step::Join { join } => self.join(query, join).ok_or(Broken::JoinNotAllowed),
        }
    }

    /// One result is held, with every relation, at the query site.
    pub fn is_finished(&self, query: &Query) -> bool {
        let all = sets::everything(query.relations.len());
        matches!(self.held[..], [last] if last.set == all && last.site == query.delivery)
    }

    fn load(&mut self, query: &Query, relation: usize) -> Option<Charge> {
        if self.held.iter().any(|held| sets::holds(held.set, relation)) {
            return None;
        }
        let site = query.relations[relation].home;
        self.held.push(Held { set: sets::single(relation), site, origin: Origin::Bare });
        Some(Charge(0))
    }

    fn send(&mut self, query: &Query, to: usize) -> Option<Charge> {
        let top = self.held.last_mut()?;
        if top.site == to || !query.line(top.site, to).open {
            return None;
        }
        let cost = prices::send(query.line(top.site, to), query.size(top.set));
        *top = Held { set: top.set, site: to, origin: Origin::Sent };
        Some(cost)
    }

    fn join(&mut self, query: &Query, join: usize) -> Option<Charge> {
        let [.., below, top] = self.held[..] else {
            return None;
        };
        let site = &query.sites[top.site];
        let linked = query.joins()[join].between(below.set, top.set);
        if below.site != top.site || !site.may_join || !linked {
            return None;
        }
        let set = below.set | top.set;
        let reads = prices::reads([below, top].map(|held| held.operand(query)));
        let cost = prices::join(site, reads, query.size(set));
        self.held.truncate(self.held.len() - 2);
        self.held.push(Held { set, site: top.site, origin: Origin::Joined });
        Some(cost)
    }
}
