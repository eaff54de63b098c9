//! Random lines: with amounts of all kinds, and such on which routes of several sends are best.

use crate::generate::amounts::{Amounts, Mood};
use crate::limits::{MOST_FIXED, MOST_RATE};
use crate::query::{Line, Query};
use crate::random::Random;
use crate::units::{Charge, Rate};

pub fn lines(random: &mut Random, sites: usize, mood: Mood) -> Vec<Line> {
    match random.below(100) {
        0..=14 => along(random, sites),
        15..=24 => ring(random, sites, mood),
        25..=39 => rounds(random, sites),
        40..=49 => fixed_or_rate(random, sites),
        _ => any(random, sites, mood),
    }
}

/// Open or closed by chance, each with amounts of its own.
fn any(random: &mut Random, sites: usize, mood: Mood) -> Vec<Line> {
    let open = random.pick(&[100, 100, 75, 50, 25]);
    let fixed = Amounts::choose(random, MOST_FIXED, mood);
    let rate = Amounts::choose(random, MOST_RATE, mood);
    let line = |_| Line {
        open: random.percent(open),
        fixed: Charge(fixed.draw(random, MOST_FIXED)),
        rate: Rate(rate.draw(random, MOST_RATE)),
    };
    (0..sites * (sites - 1)).map(line).collect()
}

/// A low price from each site to the next, in a random order of the sites. Half of the lines
/// farther on cost as much as the way along, so that routes of any number of sends tie; the
/// others are dear or closed.
fn along(random: &mut Random, sites: usize) -> Vec<Line> {
    let place = shuffled(random, sites);
    let (fixed, rate) = (random.between(0, 2), random.between(0, 1));
    let line = |(sender, receiver): (usize, usize)| {
        let farther = place[receiver].saturating_sub(place[sender]) as u64;
        if farther == 1 || farther > 1 && random.percent(50) {
            return Line { open: true, fixed: Charge(farther * fixed), rate: Rate(farther * rate) };
        }
        let (fixed, rate) = (random.between(50, 1_000), random.between(0, 3));
        Line { open: random.percent(50), fixed: Charge(fixed), rate: Rate(rate) }
    };
    Query::line_ends(sites).map(line).collect()
}

/// One way round all sites, in a random order, and every other line closed: from each site the
/// one before it is reached by as many sends as there are other sites.
fn ring(random: &mut Random, sites: usize, mood: Mood) -> Vec<Line> {
    let place = shuffled(random, sites);
    let next = |(sender, receiver): (usize, usize)| place[receiver] == (place[sender] + 1) % sites;
    let mut lines = any(random, sites, mood);
    for (line, ends) in lines.iter_mut().zip(Query::line_ends(sites)) {
        line.open = next(ends);
    }
    lines
}

/// The sites stand in four groups, and most lines from each group to the next are open, at one
/// price: routes that tie have as many sends, and differ in one of their stops or in several.
fn rounds(random: &mut Random, sites: usize) -> Vec<Line> {
    let place = shuffled(random, sites);
    let price = random.between(0, 2);
    let line = |(sender, receiver): (usize, usize)| {
        let next = place[receiver] % 4 == (place[sender] + 1) % 4;
        Line { open: next && random.percent(75), fixed: Charge(price), rate: Rate(0) }
    };
    Query::line_ends(sites).map(line).collect()
}

/// Each line charges a fixed amount or a rate, so that small results go another way than large
/// ones.
fn fixed_or_rate(random: &mut Random, sites: usize) -> Vec<Line> {
    let line = |_| {
        let fixed = if random.percent(50) { random.between(1, 60) } else { 0 };
        let rate = if fixed == 0 { random.between(1, 20) } else { 0 };
        Line { open: random.percent(90), fixed: Charge(fixed), rate: Rate(rate) }
    };
    (0..sites * (sites - 1)).map(line).collect()
}

/// The numbers below this one, in a random order.
pub fn shuffled(random: &mut Random, count: usize) -> Vec<usize> {
    let mut numbers: Vec<usize> = (0..count).collect();
    random.shuffle(&mut numbers);
    numbers
}
