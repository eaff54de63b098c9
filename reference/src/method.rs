//! How the tables are filled: as the rules say, or in one of the ways that nearly
//! work. The wrong ways are here so that the tests can be seen to tell them apart.

use crate::limits::PARCEL;
use crate::prices::{self, Operand};
use crate::query::{Line, Site};
use crate::units::{Bytes, Charge, Parcels};

#[derive(Clone, Copy, Debug, PartialEq, Eq)]
pub enum Method {
    /// As the rules say.
    Rules,
    /// Joins only at homes of the relations in the two parts.
    OnlyHomes,
    /// One operand of each join is a single relation, as in the older method.
    SingleOperand,
    /// An indexed relation that was sent qualifies.
    IndexAfterSend,
    /// An indexed relation that was sent qualifies beside one that was not.
    SentBesideAnother,
    /// Of two that qualify spares both.
    BothSpared,
    /// Of two that qualify spares neither.
    NeitherSpared,
    /// Of two that qualify spares the smaller.
    SmallerSpared,
    /// Of two that qualify and are equal spares neither.
    EqualBothRead,
    /// Of two that qualify and are equal spares both.
    EqualBothSpared,
    /// Takes each line in the other direction.
    OtherDirection,
    /// None is the largest number, and a sum with it wraps.
    WrappingNone,
    /// A line charges for each byte.
    LinesByTheByte,
    /// A parcel that is not full goes for nothing.
    FullParcelsOnly,
    /// 0 bytes take a parcel too.
    ParcelForNothing,
    /// 0 bytes are sent without the fixed amount.
    NothingSentForNothing,
    /// A join charges for parcels, as a line does.
    JoinsByTheParcel,
    /// Among equal sites takes the highest.
    HighestSite,
    /// Among equal joins takes the highest.
    HighestJoin,
    /// Among equal sites takes the asked one first.
    AskedSiteFirst,
    /// Writes the part with the lowest relation first.
    LowerPartFirst,
    /// Takes each line for the only route.
    DirectLineOnly,
    /// Knows no route of as many sends as there are other sites.
    OneSendFewer,
    /// Weighs each line once, in the order of the sites.
    LinesWeighedOnce,
    /// Chooses a result's route by the size of its lowest relation.
    RoutedByAPart,
    /// Among equal routes takes the one of most sends.
    MostSends,
    /// Among equal routes takes the lowest sites from the receiver back.
    LowestFromReceiver,
    /// Writes only the last send of a route.
    LastStopOnly,
    /// Among equal sites takes the one with the fewest sends.
    FewestSendsSite,
}

impl Method {
    /// The planners that nearly work of docs/RULES.md, 11, but for those that read or route
    /// otherwise.
    pub const NEARLY_WORKING: [Method; 9] = [
        Method::OnlyHomes,
        Method::SingleOperand,
        Method::OtherDirection,
        Method::WrappingNone,
        Method::LinesByTheByte,
        Method::FullParcelsOnly,
        Method::ParcelForNothing,
        Method::NothingSentForNothing,
        Method::JoinsByTheParcel,
    ];

    /// Those that read relations with indexes otherwise: 11.3.
    pub const READ_OTHERWISE: [Method; 7] = [
        Method::IndexAfterSend,
        Method::SentBesideAnother,
        Method::BothSpared,
        Method::NeitherSpared,
        Method::SmallerSpared,
        Method::EqualBothRead,
        Method::EqualBothSpared,
    ];

    /// Those that take dearer routes: 11.10.
    pub const ROUTED_OTHERWISE: [Method; 4] = [
        Method::DirectLineOnly,
        Method::OneSendFewer,
        Method::LinesWeighedOnce,
        Method::RoutedByAPart,
    ];

    /// Ways that cost the same and write another plan.
    pub const OTHERWISE_WRITTEN: [Method; 4] =
        [Method::HighestSite, Method::HighestJoin, Method::AskedSiteFirst, Method::LowerPartFirst];

    /// Ways that cost the same and write other sends: 11.10.
    pub const OTHERWISE_SENT: [Method; 4] = [
        Method::MostSends,
        Method::LowestFromReceiver,
        Method::LastStopOnly,
        Method::FewestSendsSite,
    ];

    /// All wrong ways.
    pub fn wrong() -> impl Iterator<Item = Method> {
        let by_cost = Method::NEARLY_WORKING.into_iter().chain(Method::READ_OTHERWISE);
        let by_cost = by_cost.chain(Method::ROUTED_OTHERWISE);
        by_cost.chain(Method::OTHERWISE_WRITTEN).chain(Method::OTHERWISE_SENT)
    }

    /// It costs what the cheapest plan costs, and only the steps tell it apart.
    pub fn costs_the_same(self) -> bool {
        Method::OTHERWISE_WRITTEN.contains(&self) || Method::OTHERWISE_SENT.contains(&self)
    }

    /// What sending a result of this size over the line costs.
    pub fn send(self, line: &Line, size: Bytes) -> Charge {
        match self {
            Method::LinesByTheByte => line.fixed + line.rate * size,
            Method::FullParcelsOnly => line.fixed + line.rate * Parcels(size.0 / PARCEL),
            Method::ParcelForNothing => prices::send(line, size.max(Bytes(1))),
            Method::NothingSentForNothing if size == Bytes(0) => Charge(0),
            _ => prices::send(line, size),
        }
    }

    /// What joining the operands at the site costs.
    pub fn join(self, site: &Site, operands: [Operand; 2], together: Bytes) -> Charge {
        let reads = self.reads(operands);
        match self {
            Method::JoinsByTheParcel => site.fixed + site.rate * prices::parcels(reads + together),
            _ => prices::join(site, reads, together),
        }
    }

    /// What a join reads of its operands.
    fn reads(self, operands: [Operand; 2]) -> Bytes {
        let [one, other] = operands.map(|operand| operand.size);
        match self {
            _ if !operands.iter().all(|operand| operand.qualifies) => prices::reads(operands),
            Method::BothSpared => Bytes(0),
            Method::NeitherSpared => one + other,
            Method::SmallerSpared => one.max(other),
            Method::EqualBothRead if one == other => one + other,
            Method::EqualBothSpared if one == other => Bytes(0),
            _ => prices::reads(operands),
        }
    }

    pub fn name(self) -> &'static str {
        match self {
            Method::Rules => "rules",
            Method::OnlyHomes => "only-homes",
            Method::SingleOperand => "single-operand",
            Method::IndexAfterSend => "index-after-send",
            Method::SentBesideAnother => "sent-beside-another",
            Method::BothSpared => "both-spared",
            Method::NeitherSpared => "neither-spared",
            Method::SmallerSpared => "smaller-spared",
            Method::EqualBothRead => "equal-both-read",
            Method::EqualBothSpared => "equal-both-spared",
            Method::OtherDirection => "other-direction",
            Method::WrappingNone => "wrapping-none",
            Method::LinesByTheByte => "lines-by-the-byte",
            Method::FullParcelsOnly => "full-parcels-only",
            Method::ParcelForNothing => "parcel-for-nothing",
            Method::NothingSentForNothing => "nothing-sent-for-nothing",
            Method::JoinsByTheParcel => "joins-by-the-parcel",
            Method::HighestSite => "highest-site",
            Method::HighestJoin => "highest-join",
            Method::AskedSiteFirst => "asked-site-first",
            Method::LowerPartFirst => "lower-part-first",
            Method::DirectLineOnly => "direct-line-only",
            Method::OneSendFewer => "one-send-fewer",
            Method::LinesWeighedOnce => "lines-weighed-once",
            Method::RoutedByAPart => "routed-by-a-part",
            Method::MostSends => "most-sends",
            Method::LowestFromReceiver => "lowest-from-receiver",
            Method::LastStopOnly => "last-stop-only",
            Method::FewestSendsSite => "fewest-sends-site",
        }
    }

    pub fn from_name(name: &str) -> Option<Method> {
        let mut all = Method::wrong().chain([Method::Rules]);
        all.find(|method| method.name() == name)
    }
}
