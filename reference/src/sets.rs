//! Sets of relations as numbers: the sum of 2^r over the relations r.

pub type Set = u16;

pub fn single(relation: usize) -> Set {
    1 << relation
}

/// The set of relations 0 to n - 1.
pub fn everything(n: usize) -> Set {
    (1 << n) - 1
}

pub fn holds(set: Set, relation: usize) -> bool {
    set >> relation & 1 == 1
}

/// How many relations the set holds.
pub fn count(set: Set) -> usize {
    set.count_ones() as usize
}

pub fn lowest(set: Set) -> usize {
    set.trailing_zeros() as usize
}

/// The relations of the set, ascending.
pub fn members(set: Set) -> impl Iterator<Item = usize> {
    (0..Set::BITS as usize).filter(move |&relation| holds(set, relation))
}
