//! A query: sites, relations, joins, sizes, lines and the query site.

use crate::sets::Set;
use crate::tree::{self, Join};
use crate::units::{Bytes, Charge, Rate};

#[derive(Clone, Copy, Debug, PartialEq, Eq)]
pub struct Site {
    pub may_join: bool,
    pub fixed: Charge,
    pub rate: Rate,
}

#[derive(Clone, Copy, Debug, PartialEq, Eq)]
pub struct Relation {
    pub home: usize,
    pub index: bool,
}

/// The way from one site to another; a closed line keeps its amounts, unused.
#[derive(Clone, Copy, Debug, PartialEq, Eq)]
pub struct Line {
    pub open: bool,
    pub fixed: Charge,
    pub rate: Rate,
}

#[derive(Clone, Debug, PartialEq, Eq)]
pub struct Query {
    pub sites: Vec<Site>,
    pub relations: Vec<Relation>,
    joins: Vec<Join>,
    /// All subqueries, ascending.
    subqueries: Vec<Set>,
    /// A size for each subquery, in the same order.
    pub sizes: Vec<Bytes>,
    /// By sender, then receiver, the sender itself left out.
    pub lines: Vec<Line>,
    /// The query site.
    pub delivery: usize,
}

impl Query {
    pub fn new(
        sites: Vec<Site>,
        relations: Vec<Relation>,
        joins: Vec<Join>,
        sizes: Vec<Bytes>,
        lines: Vec<Line>,
        delivery: usize,
    ) -> Query {
        let subqueries = tree::subqueries(&joins, relations.len());
        assert_eq!(sizes.len(), subqueries.len());
        assert_eq!(lines.len(), sites.len() * (sites.len() - 1));
        Query { sites, relations, joins, subqueries, sizes, lines, delivery }
    }

    pub fn joins(&self) -> &[Join] {
        &self.joins
    }

    pub fn subqueries(&self) -> &[Set] {
        &self.subqueries
    }

    /// The cells that solve needs, one for each subquery and site, and the only ones that it
    /// may write.
    pub fn cells_needed(&self) -> usize {
        self.subqueries.len() * self.sites.len()
    }

    pub fn size(&self, subquery: Set) -> Bytes {
        let place = self.subqueries.binary_search(&subquery);
        self.sizes[place.expect("only a subquery has a size")]
    }

    pub fn line(&self, sender: usize, receiver: usize) -> &Line {
        &self.lines[self.line_place(sender, receiver)]
    }

    pub fn line_mut(&mut self, sender: usize, receiver: usize) -> &mut Line {
        let place = self.line_place(sender, receiver);
        &mut self.lines[place]
    }

    fn line_place(&self, sender: usize, receiver: usize) -> usize {
        assert_ne!(sender, receiver, "no line leads from a site to itself");
        let left_out = usize::from(receiver > sender);
        sender * (self.sites.len() - 1) + receiver - left_out
    }

    /// Sender and receiver of every line, in the order of `lines`.
    pub fn line_ends(sites: usize) -> impl Iterator<Item = (usize, usize)> {
        (0..sites).flat_map(move |sender| {
            let others = (0..sites).filter(move |&receiver| receiver != sender);
            others.map(move |receiver| (sender, receiver))
        })
    }
}
