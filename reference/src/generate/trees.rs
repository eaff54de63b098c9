//! Every tree of so many relations, each by its Pruefer sequence: n - 2 relations, in which a
//! relation stands once for each of its joins but one.

use crate::random::Random;
use crate::sets::{self, Set};
use crate::tree::Join;

/// All n^(n - 2) trees of n relations that are told apart by their relations' numbers.
pub fn every(n: usize) -> impl Iterator<Item = Vec<Join>> {
    let length = n.saturating_sub(2);
    (0..n.pow(length as u32)).map(move |number| joins(n, &sequence(n, length, number)))
}

/// The same tree, its joins in any order and each either way round.
pub fn turned(random: &mut Random, mut joins: Vec<Join>) -> Vec<Join> {
    random.shuffle(&mut joins);
    for join in &mut joins {
        if random.percent(50) {
            *join = Join { first: join.second, second: join.first };
        }
    }
    joins
}

/// The digits of the number to the base n.
fn sequence(n: usize, length: usize, mut number: usize) -> Vec<usize> {
    let digit = |_| {
        let digit = number % n;
        number /= n;
        digit
    };
    (0..length).map(digit).collect()
}

/// The lowest relation that no place names any more has its last join with the one named here;
/// the two that are left at the end are joined.
fn joins(n: usize, sequence: &[usize]) -> Vec<Join> {
    let mut left = sets::everything(n);
    let mut joins = Vec::new();
    for (place, &second) in sequence.iter().enumerate() {
        let named: Set = sequence[place..].iter().fold(0, |set, &name| set | sets::single(name));
        let first = sets::lowest(left & !named);
        joins.push(Join { first, second });
        left &= !sets::single(first);
    }
    if let [first, second] = sets::members(left).collect::<Vec<_>>()[..] {
        joins.push(Join { first, second });
    }
    joins
}
