//! Random amounts: where those of one kind lie in one query.

use crate::random::Random;

/// Whether all kinds of amounts in a query are such that many plans cost the same.
#[derive(Clone, Copy, Debug, PartialEq, Eq)]
pub enum Mood {
    Ties,
    Mixed,
}

/// Where the amounts of one kind lie in one query.
#[derive(Clone, Copy, Debug)]
pub enum Amounts {
    Zero,
    /// One value for all.
    Alike(u64),
    UpTo(u64),
    /// All orders of magnitude up to the limit.
    Spread,
    /// The limit, one below it, or 0.
    AtLimit,
}

impl Amounts {
    pub fn choose(random: &mut Random, limit: u64, mood: Mood) -> Amounts {
        if mood == Mood::Ties {
            return random.pick(&[
                Amounts::Zero,
                Amounts::Alike(1),
                Amounts::Alike(1),
                Amounts::UpTo(1),
            ]);
        }
        match random.below(10) {
            0 => Amounts::Zero,
            1 => Amounts::Alike(random.between(0, 3)),
            2 => Amounts::Alike(random.spread(limit)),
            3 => Amounts::UpTo(1),
            4 | 5 => Amounts::UpTo(3),
            6 => Amounts::UpTo(20.min(limit)),
            7 => Amounts::UpTo(100.min(limit)),
            8 => Amounts::Spread,
            _ => Amounts::AtLimit,
        }
    }

    pub fn draw(self, random: &mut Random, limit: u64) -> u64 {
        match self {
            Amounts::Zero => 0,
            Amounts::Alike(value) => value,
            Amounts::UpTo(most) => random.between(0, most),
            Amounts::Spread => random.spread(limit),
            Amounts::AtLimit => random.pick(&[limit, limit, limit - 1, 0]),
        }
    }
}
