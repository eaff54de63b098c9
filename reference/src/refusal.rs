//! The refusals and their numbers (docs/RULES.md, 8).

#[derive(Clone, Copy, Debug, PartialEq, Eq)]
pub enum Refusal {
    Cut,
    WrongCount,
    OutOfRange,
    NotReached,
    BytesFollow,
    LinkSites,
    PlanLength,
    UnknownStep { step: usize },
    LoadedBefore { step: usize },
    SendNotAllowed { step: usize },
    JoinNotAllowed { step: usize },
    WrongEnd { count: usize },
    NothingLoaded,
    FewCells,
    ShortOutput,
}

impl Refusal {
    pub fn number(self) -> u64 {
        match self {
            Refusal::Cut => 1,
            Refusal::WrongCount => 2,
            Refusal::OutOfRange => 3,
            Refusal::NotReached => 4,
            Refusal::BytesFollow => 5,
            Refusal::LinkSites => 6,
            Refusal::PlanLength => 7,
            Refusal::UnknownStep { .. } => 8,
            Refusal::LoadedBefore { .. } => 9,
            Refusal::SendNotAllowed { .. } => 10,
            Refusal::JoinNotAllowed { .. } => 11,
            Refusal::WrongEnd { .. } => 12,
            Refusal::NothingLoaded => 20,
            Refusal::FewCells => 21,
            Refusal::ShortOutput => 23,
        }
    }

    /// The step for 8 to 11, the count for 12.
    pub fn place(self) -> Option<usize> {
        match self {
            Refusal::UnknownStep { step }
            | Refusal::LoadedBefore { step }
            | Refusal::SendNotAllowed { step }
            | Refusal::JoinNotAllowed { step } => Some(step),
            Refusal::WrongEnd { count } => Some(count),
            _ => None,
        }
    }
}
