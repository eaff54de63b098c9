//! What the statements say of those that are declared.

use reference::limits::MOST_RELATIONS;
use reference::query::{Line, Relation};

use crate::text::fault::{Faults, Place};
use crate::text::gathered::{put, Gathered};
use crate::text::register::Kind;
use crate::text::statement::{Called, Home, Said, Statement, Terms};

impl<'t> Gathered<'t> {
    /// The statement, which declares those of these numbers.
    pub fn refer(&mut self, statement: &Statement<'t>, numbers: &[usize], faults: &mut Faults) {
        let place = statement.place;
        match &statement.said {
            Said::Relations { terms: Terms::Told(Home { site, index }), .. } => {
                let home = self.find(Kind::Site, *site).map(|(home, _)| home);
                let relation = home.map(|home| Relation { home, index: *index });
                put(&mut self.relations, numbers, relation);
            }
            Said::Join { ends, .. } => {
                let ends = ends.map(|end| self.find(Kind::Relation, end));
                self.joins.extend(numbers.iter().map(|&number| (number, place, ends)));
            }
            Said::Size { relations, size } => {
                let relations = relations.as_ref().map(|list| {
                    list.iter().map(|&one| self.find(Kind::Relation, one)).collect::<Vec<_>>()
                });
                self.sizing.size(place, relations, *size, &self.names, faults);
            }
            Said::Rows { relation, rows } => {
                let relation = self.find(Kind::Relation, *relation);
                self.sizing.rows(place, relation, *rows, &self.names, faults);
            }
            Said::Divisor { join, divisor } => {
                let join = self.find(Kind::Join, *join);
                self.sizing.divisor(place, join, *divisor, faults);
            }
            _ => self.refer_to_sites(statement, faults),
        }
    }

    fn refer_to_sites(&mut self, statement: &Statement<'t>, faults: &mut Faults) {
        let place = statement.place;
        match &statement.said {
            Said::EveryLine(line) => {
                let again = |_: &()| (place, "'every line' is".to_string());
                self.every_line.take(place, Some(()), *line, again, faults);
            }
            Said::Line { ends, line } => self.line(place, *ends, *line, faults),
            Said::Delivery(site) => {
                let site = self.find(Kind::Site, *site).map(|(site, _)| site);
                let again = |_: &()| (place, "the delivery is".to_string());
                self.delivery.take(place, Some(()), site, again, faults);
            }
            _ => {}
        }
    }

    fn line(
        &mut self,
        place: Place,
        ends: [Called<'t>; 2],
        line: Option<Line>,
        faults: &mut Faults,
    ) {
        let found = ends.map(|end| self.find(Kind::Site, end));
        let names = &self.names;
        let key = match found {
            [Some((sender, _)), Some((receiver, at))] if sender == receiver => {
                faults.tell(at, format!("no line leads from {} to itself", names.the_site(sender)));
                None
            }
            [Some((sender, _)), Some((receiver, _))] => Some((sender, receiver)),
            _ => None,
        };
        let at = found[0].map_or(place, |(_, at)| at);
        let again = |&(sender, receiver): &(usize, usize)| {
            (at, format!("line {} to {} is", names.site(sender), names.site(receiver)))
        };
        self.lines.take(place, key, line, again, faults);
        if ends.iter().all(Option::is_none) {
            self.lines.lost();
        }
    }

    fn find(&mut self, kind: Kind, called: Called<'t>) -> Option<(usize, Place)> {
        let word = called?;
        let number = self.register.find(kind, word)?;
        (number < MOST_RELATIONS).then_some((number, word.place))
    }
}
