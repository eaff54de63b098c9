//! A plan walked step by step, the price of each step taken apart.

use reference::prices;
use reference::query::Query;
use reference::rules::{Held, Stack};
use reference::step::Step;
use reference::units::{Bytes, Charge, Parcels, Rate};

/// A step of a plan, what is on top after it, and what all steps so far cost.
#[derive(Clone, Debug, PartialEq, Eq)]
pub struct Priced {
    pub step: Step,
    pub held: Held,
    pub size: Bytes,
    pub price: Price,
    pub sum: Charge,
}

#[derive(Clone, Debug, PartialEq, Eq)]
pub enum Price {
    /// A load costs nothing.
    Load,
    Send(Sending),
    Join(Joining),
}

/// By the parcel.
#[derive(Clone, Copy, Debug, PartialEq, Eq)]
pub struct Sending {
    pub from: usize,
    pub to: usize,
    pub fixed: Charge,
    pub rate: Rate,
    pub parcels: Parcels,
}

/// By the byte, of what is read and of the result.
#[derive(Clone, Copy, Debug, PartialEq, Eq)]
pub struct Joining {
    pub site: usize,
    pub fixed: Charge,
    pub rate: Rate,
    /// The one below, and the top.
    pub operands: [Operand; 2],
    pub result: Bytes,
}

#[derive(Clone, Copy, Debug, PartialEq, Eq)]
pub struct Operand {
    pub held: Held,
    pub size: Bytes,
    /// Its index can be followed.
    pub qualifies: bool,
}

impl Price {
    pub fn charge(&self) -> Charge {
        match self {
            Price::Load => Charge(0),
            Price::Send(sending) => sending.charge(),
            Price::Join(joining) => {
                let read = joining.read().fold(Bytes(0), |sum, operand| sum + operand.size);
                joining.fixed + joining.rate * (read + joining.result)
            }
        }
    }
}

impl Sending {
    pub fn charge(&self) -> Charge {
        self.fixed + self.rate * self.parcels
    }
}

impl Joining {
    /// Which operand's index is followed: of two that qualify the larger's.
    pub fn spared_place(&self) -> Option<usize> {
        let [below, top] = self.operands;
        match (below.qualifies, top.qualifies) {
            (true, true) => Some(usize::from(top.size > below.size)),
            (true, false) => Some(0),
            (false, true) => Some(1),
            (false, false) => None,
        }
    }

    pub fn spared(&self) -> Option<Operand> {
        self.spared_place().map(|place| self.operands[place])
    }

    pub fn read(&self) -> impl Iterator<Item = Operand> {
        let spared = self.spared_place();
        let read = self.operands.into_iter().enumerate();
        read.filter(move |&(place, _)| Some(place) != spared).map(|(_, operand)| operand)
    }
}

/// The steps with their prices; nothing where the plan is not allowed for the query.
pub fn walk(query: &Query, steps: &[Step]) -> Option<Vec<Priced>> {
    let mut stack = Stack::default();
    let mut sum = Charge(0);
    let mut walked = Vec::new();
    for &step in steps {
        let before = stack.held.clone();
        stack.step(query, step).ok()?;
        let held = *stack.held.last()?;
        let size = query.size(held.set);
        let price = price(query, step, &before, size)?;
        sum = sum + price.charge();
        walked.push(Priced { step, held, size, price, sum });
    }
    stack.is_finished(query).then_some(walked)
}

/// Of an allowed step on what was held before; `size` is that of what it makes.
fn price(query: &Query, step: Step, before: &[Held], size: Bytes) -> Option<Price> {
    Some(match (step, before) {
        (Step::Load { .. }, _) => Price::Load,
        (Step::Send { to }, [.., top]) => {
            let line = query.line(top.site, to);
            let parcels = prices::parcels(size);
            Price::Send(Sending { from: top.site, to, fixed: line.fixed, rate: line.rate, parcels })
        }
        (Step::Join { .. }, [.., below, top]) => {
            let site = &query.sites[top.site];
            let operand = |held: &Held| Operand {
                held: *held,
                size: query.size(held.set),
                qualifies: held.qualifies(query),
            };
            let operands = [operand(below), operand(top)];
            let (fixed, rate) = (site.fixed, site.rate);
            Price::Join(Joining { site: top.site, fixed, rate, operands, result: size })
        }
        _ => return None,
    })
}
