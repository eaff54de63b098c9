//! Planners whose calls go wrong in one way each; the comparison of call lists stops at
//! every one of them. What can go wrong within one solve is in faulty_solves.rs, within one
//! room in faulty_rooms.rs.

use std::io;

use reference::compare::calls;
use reference::compare::program::{Answering, Feed};
use reference::method::Method;
use reference::planner::{Link, Planner};
use reference::script::Call;

#[derive(Clone, Copy, Debug)]
enum Fault {
    None,
    LinkChangesNothing,
    LinkOtherDirection,
    LinkCutsArguments,
    LoadAlwaysRefuses,
    RefusedLoadDropsQuery,
    SolveDropsQuery,
    RefusedSolveDropsQuery,
    CheckDropsQuery,
    CheckRejectsAll,
    /// Once a plan is found, every solve answers with it.
    FirstPlanEverAfter,
    /// Once a plan is found, every solve answers with it up to the next load.
    PlanOutlivesLinks,
    UnknownRecordPassedOver,
}

const FAULTS: [Fault; 12] = [
    Fault::LinkChangesNothing,
    Fault::LinkOtherDirection,
    Fault::LinkCutsArguments,
    Fault::LoadAlwaysRefuses,
    Fault::RefusedLoadDropsQuery,
    Fault::SolveDropsQuery,
    Fault::RefusedSolveDropsQuery,
    Fault::CheckDropsQuery,
    Fault::CheckRejectsAll,
    Fault::FirstPlanEverAfter,
    Fault::PlanOutlivesLinks,
    Fault::UnknownRecordPassedOver,
];

impl Answering for Fault {
    fn run(&self, mut script: &[u8], _: Feed) -> io::Result<String> {
        let mut faulty = Faulty::new(*self);
        let mut text = String::new();
        loop {
            match (Call::next(&mut script), self) {
                (Some(call), _) => {
                    text.extend(faulty.call(call).into_iter().map(|line| line + "\n"))
                }
                (None, Fault::UnknownRecordPassedOver) if !script.is_empty() => {}
                (None, _) => return Ok(text),
            }
        }
    }
}

/// The model with one fault.
struct Faulty {
    fault: Fault,
    planner: Planner,
    /// The planner as it was when a plan was found, for the faults that answer by it again.
    earlier: Option<Planner>,
}

impl Faulty {
    fn new(fault: Fault) -> Faulty {
        Faulty { fault, planner: Planner::empty(Method::Rules), earlier: None }
    }

    fn call(&mut self, call: Call) -> Vec<String> {
        match call {
            Call::Load { .. } => self.load(&call),
            Call::Link(link) => self.link(link),
            Call::Solve { .. } => self.solve(&call),
            Call::Check { ref plan } => self.check(plan, &call),
            Call::Room(_) => call.run(&mut self.planner),
        }
    }

    fn load(&mut self, call: &Call) -> Vec<String> {
        let lines = call.run(&mut self.planner);
        match self.fault {
            Fault::LoadAlwaysRefuses => return vec!["refused 1".to_string()],
            Fault::RefusedLoadDropsQuery if lines[0].starts_with("refused") => self.drop_query(),
            Fault::PlanOutlivesLinks if lines[0].starts_with("load") => self.earlier = None,
            _ => {}
        }
        lines
    }

    fn link(&mut self, link: Link) -> Vec<String> {
        let before = self.planner.clone();
        let done = match self.fault {
            Fault::LinkOtherDirection => {
                Link { sender: link.receiver, receiver: link.sender, ..link }
            }
            Fault::LinkCutsArguments => Link {
                sender: u64::from(link.sender as u32),
                receiver: u64::from(link.receiver as u32),
                open: u64::from(link.open as u32),
                fixed: u64::from(link.fixed as u32),
                rate: u64::from(link.rate as u32),
            },
            _ => link,
        };
        let lines = Call::Link(done).run(&mut self.planner);
        if matches!(self.fault, Fault::LinkChangesNothing) {
            self.planner = before;
        }
        lines
    }

    fn solve(&mut self, call: &Call) -> Vec<String> {
        let mut by = self.earlier.as_ref().unwrap_or(&self.planner).clone();
        let lines = call.run(&mut by);
        let (found, refused) = (lines[0].starts_with("solved"), lines[0].starts_with("refused"));
        match self.fault {
            Fault::FirstPlanEverAfter | Fault::PlanOutlivesLinks if found => {
                self.earlier = Some(by);
            }
            Fault::SolveDropsQuery if !refused => self.drop_query(),
            Fault::RefusedSolveDropsQuery if refused => self.drop_query(),
            _ => {}
        }
        lines
    }

    fn check(&mut self, plan: &[u8], call: &Call) -> Vec<String> {
        let lines = call.run(&mut self.planner);
        match self.fault {
            Fault::CheckDropsQuery => self.drop_query(),
            Fault::CheckRejectsAll if lines[0].starts_with("check") => {
                return vec![format!("refused 12 {}", plan[0])];
            }
            _ => {}
        }
        lines
    }

    fn drop_query(&mut self) {
        self.planner = Planner::empty(Method::Rules);
    }
}

#[test]
fn without_a_fault_it_passes() {
    assert!(calls::compare(&Fault::None, 61, 20).unwrap().is_ok());
}

#[test]
fn every_fault_is_found() {
    for fault in FAULTS {
        let Err(mismatch) =
            calls::compare(&fault, calls::DEFAULT_SEED, calls::DEFAULT_LISTS).unwrap()
        else {
            panic!("{fault:?} is not found");
        };
        println!("== {fault:?}\n{mismatch}");
        assert!(mismatch.calls.len() <= 5, "{fault:?}: {mismatch}");
    }
}
