//! Why a plan is refused, in words: which rule its step breaks, by the model's walk.

use reference::limits::MOST_STEPS;
use reference::names::Names;
use reference::query::Query;
use reference::refusal::Refusal;
use reference::rules::Stack;
use reference::sets;
use reference::step::Step;

use crate::checked::not_allowed;
use crate::wording;

/// The reason for a refusal of check, which is the model's for this plan.
pub fn reason(query: &Query, names: &Names, plan: &[u8], refusal: Refusal) -> String {
    let walk = Walk { query, names, plan };
    match refusal {
        Refusal::PlanLength => walk.length(),
        Refusal::UnknownStep { step } => walk.unknown(step),
        Refusal::LoadedBefore { step } => walk.loaded_before(step),
        Refusal::SendNotAllowed { step } | Refusal::JoinNotAllowed { step } => {
            not_allowed::reason(query, names, &walk.stack(step).held, walk.step(step))
        }
        Refusal::WrongEnd { count } => walk.end(count),
        other => format!("{other:?}"),
    }
}

struct Walk<'a> {
    query: &'a Query,
    names: &'a Names,
    plan: &'a [u8],
}

impl Walk<'_> {
    /// Kind and argument of a step; of one that is not there, zeros.
    fn bytes(&self, step: usize) -> [u8; 2] {
        let byte = |place: usize| self.plan.get(1 + 2 * step + place).copied().unwrap_or_default();
        [byte(0), byte(1)]
    }

    fn step(&self, step: usize) -> Option<Step> {
        let [kind, argument] = self.bytes(step);
        Step::from_bytes(self.query, kind, argument)
    }

    /// The stack before a step, to which all steps were allowed.
    fn stack(&self, step: usize) -> Stack {
        let mut stack = Stack::default();
        for step in (0..step).filter_map(|before| self.step(before)) {
            let _ = stack.step(self.query, step);
        }
        stack
    }

    fn length(&self) -> String {
        let Some((&count, _)) = self.plan.split_first() else {
            return "the plan is empty".to_string();
        };
        if self.plan.len() == 1 && count == 0 {
            return format!("the plan has no steps: must be 1 to {MOST_STEPS}");
        }
        if !(1..=MOST_STEPS).contains(&usize::from(count)) {
            return format!("its count of steps is {count}: must be 1 to {MOST_STEPS}");
        }
        let wanted = 1 + 2 * usize::from(count);
        format!("a count of {count} wants {wanted} bytes, and it has {}", self.plan.len())
    }

    fn unknown(&self, step: usize) -> String {
        let [kind, argument] = self.bytes(step);
        let (what, count) = match kind {
            1 => ("relation", self.query.relations.len()),
            2 => ("site", self.query.sites.len()),
            3 => ("join", self.query.joins().len()),
            _ => return format!("there is no kind {kind}: 1 is load, 2 is send, 3 is join"),
        };
        match count {
            0 => format!("the query has no {what}s"),
            1 => format!("the query has no {what} {argument}, only {what} 0"),
            _ => format!("the query has no {what} {argument}, only 0 to {}", count - 1),
        }
    }

    fn loaded_before(&self, step: usize) -> String {
        let [_, relation] = self.bytes(step);
        let first = (0..step).find(|&before| self.bytes(before) == [1, relation]);
        let relation = self.names.the_relation(usize::from(relation));
        format!("{relation} was loaded before, at step {}", first.unwrap_or_default())
    }

    fn end(&self, count: usize) -> String {
        let stack = self.stack(count);
        let [last] = stack.held[..] else {
            let held: Vec<String> =
                stack.held.iter().map(|held| wording::held(self.names, held)).collect();
            return format!("{} are held, and one must be left", wording::list(&held));
        };
        let mut reasons = Vec::new();
        let missing = sets::everything(self.query.relations.len()) & !last.set;
        if missing != 0 {
            let are = if sets::count(missing) == 1 { "is" } else { "are" };
            let missing = wording::each_relation(self.names, missing);
            reasons.push(format!("{missing} {are} never loaded"));
        }
        if last.site != self.query.delivery {
            let (last, delivery) =
                (wording::held(self.names, &last), self.names.the_site(self.query.delivery));
            reasons.push(format!("what is left, {last}, is to be delivered to {delivery}"));
        }
        reasons.join("; ")
    }
}
