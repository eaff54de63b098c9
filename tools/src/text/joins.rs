//! Whether the joins of a text make a tree of its relations.

use reference::limits::MOST_RELATIONS;
use reference::sets::{self, Set};
use reference::tree::Join;

use crate::text::fault::Faults;
use crate::text::gathered::{Ends, Gathered};
use crate::text::register::Kind;
use crate::wording::{counted, each_relation};

impl Gathered<'_> {
    /// The joins, which reach all relations; nothing where one is faulty, or a statement that
    /// could not be read may have been a join or a relation.
    pub fn tree(&self, faults: &mut Faults) -> Option<Vec<Join>> {
        let mut parts: Vec<Set> = (0..self.register.of(Kind::Relation).count().min(MOST_RELATIONS))
            .map(sets::single)
            .collect();
        let mut joins = Vec::new();
        for &(number, _, ends) in &self.joins {
            joins.extend(self.join(number, ends, &mut parts, faults));
        }
        let relations = self.register.sure(Kind::Relation)?;
        self.register.sure(Kind::Join)?;
        if joins.len() < self.joins.len() || relations == 0 {
            return None;
        }
        self.reaches_all(relations, &parts, faults).then_some(joins)
    }

    /// The join, which makes one part of two.
    fn join(
        &self,
        number: usize,
        ends: Ends,
        parts: &mut Vec<Set>,
        faults: &mut Faults,
    ) -> Option<Join> {
        let [Some((first, at)), Some((second, to))] = ends else {
            return None;
        };
        let called = |relation| self.names.the_relation(relation);
        if first == second {
            faults.tell(to, format!("join {number} links {} with itself", called(first)));
            return None;
        }
        let part = |relation| parts.iter().copied().find(|&part| sets::holds(part, relation));
        let (one, other) = (part(first)?, part(second)?);
        if one == other {
            let (first, second) = (called(first), called(second));
            let reason =
                format!("join {number} links {first} and {second}, which are connected already");
            faults.tell(at, reason);
            return None;
        }
        parts.retain(|&part| part != one && part != other);
        parts.push(one | other);
        Some(Join { first, second })
    }

    fn reaches_all(&self, relations: usize, parts: &[Set], faults: &mut Faults) -> bool {
        let reached = parts.iter().copied().find(|&part| sets::holds(part, 0)).unwrap_or(0);
        let beyond = sets::everything(relations.min(MOST_RELATIONS)) & !reached;
        if beyond == 0 {
            return true;
        }
        let place = self.joins.last().map_or(self.end, |&(_, place, _)| place);
        let reason = format!(
            "no join reaches {} from {}; {relations} relations need {}, not {}",
            each_relation(&self.names, beyond),
            self.names.the_relation(0),
            counted(relations - 1, "join"),
            self.joins.len(),
        );
        faults.tell(place, reason);
        false
    }
}
