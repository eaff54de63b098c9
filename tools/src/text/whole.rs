//! What a text comes to as a whole, or what is missing in it.

use reference::query::{Line, Query, Relation, Site};
use reference::room::Draft;
use reference::rows::RowCounts;
use reference::stated::{Form, Stated};
use reference::tree::{self, Join};
use reference::units::Bytes;

use crate::text::fault::Faults;
use crate::text::gathered::Gathered;
use crate::text::once::{DIVISORS, LINES, ROWS, SIZES};
use crate::text::register::Kind;
use crate::wording::each_relation;

impl Gathered<'_> {
    /// What room is told; nothing where a fault was told.
    pub fn draft(&mut self, faults: &mut Faults) -> Option<Draft> {
        let joins = self.checked(faults)?;
        let count = |kind| self.register.of(kind).count() as u64;
        Some(Draft::new(count(Kind::Relation), count(Kind::Site), &joins))
    }

    /// The query; nothing where a fault was told.
    pub fn stated(&mut self, faults: &mut Faults) -> Option<Stated> {
        let joins = self.checked(faults);
        for &(place, left_out) in &self.bare {
            faults.tell(place, format!("expected {left_out}, which only a draft leaves out"));
        }
        if self.delivery.is_empty() && !self.register.unread {
            faults.tell(self.end, "no delivery; expected 'delivery to' and a site");
        }
        let lines = self.lines_in_order(faults);
        let joins = joins?;
        let (sizes, counts) = match self.sizing.form() {
            Form::Sizes => (self.sizes(&joins, faults)?, None),
            Form::Rows => {
                let counts = self.row_counts(&joins, faults)?;
                (counts.sizes(&joins), Some(counts))
            }
        };
        let sites: Vec<Site> = self.sites.iter().copied().collect::<Option<_>>()?;
        let relations: Vec<Relation> = self.relations.iter().copied().collect::<Option<_>>()?;
        let (lines, delivery) = (lines?, self.delivery.get(&())?);
        if !faults.is_empty() {
            return None;
        }
        let query = Query::new(sites, relations, joins, sizes, lines, delivery);
        Some(Stated { query, counts })
    }

    /// The joins, where they make a tree; all that is told of a draft too.
    fn checked(&mut self, faults: &mut Faults) -> Option<Vec<Join>> {
        self.register.tell_unknown(&self.names, faults);
        if self.register.sure(Kind::Site) == Some(0) {
            faults.tell(self.end, "no site; expected 'site NAME may join, fixed F, rate R'");
        }
        if self.register.sure(Kind::Relation) == Some(0) {
            faults.tell(self.end, "no relation; expected 'relation NAME at SITE'");
        }
        let joins = self.tree(faults)?;
        for &(set, place) in &self.sizing.sets {
            if !tree::is_subquery(&joins, set) {
                let relations = each_relation(&self.names, set);
                let reason = format!("{relations} are not connected by joins, so have no size");
                faults.tell(place, reason);
                self.sizing.sizes.withdraw();
            }
        }
        Some(joins)
    }

    /// The size of every subquery, ascending.
    fn sizes(&self, joins: &[Join], faults: &mut Faults) -> Option<Vec<Bytes>> {
        let subqueries = tree::subqueries(joins, joins.len() + 1);
        let sizes = &self.sizing.sizes;
        if !self.sizing.both && !self.register.unread {
            let called = |set| format!("'{}'", self.names.set(set));
            sizes.tell_missing(&SIZES, subqueries.clone(), called, self.end, faults);
        }
        subqueries.iter().map(|set| sizes.get(set).map(Bytes)).collect()
    }

    /// Rows of every relation and a divisor of every join.
    fn row_counts(&self, joins: &[Join], faults: &mut Faults) -> Option<RowCounts> {
        let (rows, divisors) = (&self.sizing.rows, &self.sizing.divisors);
        if !self.sizing.both && !self.register.unread {
            let relation = |one| self.names.the_relation(one);
            rows.tell_missing(&ROWS, 0..=joins.len(), relation, self.end, faults);
            let join = |one| format!("join {one}");
            divisors.tell_missing(&DIVISORS, 0..joins.len(), join, self.end, faults);
        }
        let rows = (0..=joins.len()).map(|one| rows.get(&one)).collect::<Option<_>>()?;
        let divisors = (0..joins.len()).map(|one| divisors.get(&one)).collect::<Option<_>>()?;
        Some(RowCounts { rows, divisors })
    }

    fn lines_in_order(&self, faults: &mut Faults) -> Option<Vec<Line>> {
        let ends: Vec<(usize, usize)> = Query::line_ends(self.register.sure(Kind::Site)?).collect();
        if self.every_line.is_empty() {
            let line = |(sender, receiver)| {
                format!("{} to {}", self.names.site(sender), self.names.site(receiver))
            };
            self.lines.tell_missing(&LINES, ends.clone(), line, self.end, faults);
        }
        let line = |ends: &(usize, usize)| match self.lines.has(ends) {
            true => self.lines.get(ends),
            false => self.every_line.get(&()),
        };
        ends.iter().map(line).collect()
    }
}
