//! Queries of relations with indexes, with the cheapest plan of each worked out by hand. Where
//! both operands of a join qualify, the smaller is read.

use crate::limits::MOST_SIZE;
use crate::pinned::{self, Worked};
use crate::query::{Query, Relation, Site};
use crate::units::{Bytes, Charge, Rate};

/// The plan that joins relations 0 and 1 where they stand.
const WHERE_THEY_STAND: [u8; 7] = [3, 1, 0, 1, 1, 3, 0];

pub fn worked() -> Vec<Worked> {
    let mut worked = at_one_home();
    worked.extend(elsewhere());
    worked.push(third_relation_first());
    worked
}

/// Two relations at site 0, where they are joined for 2 + 1 x (what is read + 3).
pub fn at_one_home() -> Vec<Worked> {
    let both = [true; 2];
    let case = |what, sizes, index, cost| {
        let query = pair([0, 0], index, sizes);
        Worked { what, query, plan: WHERE_THEY_STAND.to_vec(), cost }
    };
    vec![
        case("the larger first", [10, 4], both, 2 + 4 + 3),
        case("the larger second", [4, 10], both, 2 + 4 + 3),
        case("equal sizes", [5, 5], both, 2 + 5 + 3),
        case("both of 0 bytes", [0, 0], both, 2 + 3),
        case("the first of 0 bytes", [0, 10], both, 2 + 3),
        case("the second of 0 bytes", [10, 0], both, 2 + 3),
        case("a byte apart", [4, 5], both, 2 + 4 + 3),
        case("equal at the limit", [MOST_SIZE; 2], both, 2 + MOST_SIZE + 3),
        case("a byte below the limit", [MOST_SIZE, MOST_SIZE - 1], both, 2 + MOST_SIZE - 1 + 3),
        case("only the larger indexed", [10, 4], [true, false], 2 + 4 + 3),
        case("only the smaller indexed", [10, 4], [false, true], 2 + 10 + 3),
        case("only one of equals indexed", [5, 5], [false, true], 2 + 5 + 3),
        case("neither indexed", [10, 4], [false; 2], 2 + 10 + 4 + 3),
    ]
}

/// The sizes of Q, both indexed. A send takes 3 for relation 0, 2 for relation 1 and 2 for the
/// result.
pub fn elsewhere() -> Vec<Worked> {
    let case = |what, homes, barred: &[usize], delivery, plan: &[u8], cost| {
        let mut query = pair(homes, [true; 2], [10, 4]);
        barred.iter().for_each(|&site| query.sites[site].may_join = false);
        query.delivery = delivery;
        Worked { what, query, plan: plan.to_vec(), cost }
    };
    let (both_read, larger_read, smaller_read) = (2 + 10 + 4 + 3, 2 + 10 + 3, 2 + 4 + 3);
    let to_1 = [6, 1, 0, 2, 1, 1, 1, 2, 1, 3, 0, 2, 0];
    let to_2 = [6, 1, 0, 2, 2, 1, 1, 2, 2, 3, 0, 2, 0];
    let second_to_0 = [4, 1, 0, 1, 1, 2, 0, 3, 0];
    let first_to_1 = [5, 1, 0, 2, 1, 1, 1, 3, 0, 2, 0];
    let then_sent = [4, 1, 0, 1, 1, 3, 0, 2, 2];
    vec![
        case("the result sent", [0, 0], &[], 2, &then_sent, smaller_read + 2),
        case("both sent from one home", [0, 0], &[0], 0, &to_1, 3 + 2 + both_read + 2),
        case("at the home of the larger", [0, 1], &[], 0, &second_to_0, 2 + smaller_read),
        case("at the home of the smaller", [0, 1], &[0], 0, &first_to_1, 3 + larger_read + 2),
        case("both sent from two homes", [0, 1], &[0, 1], 0, &to_2, 3 + 2 + both_read + 2),
    ]
}

/// A chain of three at one site, the first two of 10 bytes and indexed, {0, 1} of 3, {1, 2} of
/// 5. By {1, 2}: 2 + 1 + 5, and 2 + 5 + 1 with relation 0. By {0, 1} it is 2 + 10 + 3, and
/// 2 + 3 + 1 + 1; with both reads spared that would be the cheaper, 12.
pub fn third_relation_first() -> Worked {
    let site = Site { may_join: true, fixed: Charge(2), rate: Rate(1) };
    let relations = [true, true, false].map(|index| Relation { home: 0, index });
    let sizes = [10, 10, 3, 1, 5, 1].map(Bytes);
    let (relations, sizes) = (relations.to_vec(), sizes.to_vec());
    Worked {
        what: "the third relation first",
        query: Query::new(vec![site], relations, pinned::chain(3), sizes, Vec::new(), 0),
        plan: vec![5, 1, 0, 1, 1, 1, 2, 3, 1, 3, 0],
        cost: 8 + 8,
    }
}

/// Q with other relations. The result has 3 bytes.
fn pair(homes: [usize; 2], index: [bool; 2], sizes: [u64; 2]) -> Query {
    let relation = |place: usize| Relation { home: homes[place], index: index[place] };
    let mut query = pinned::q();
    query.relations = [0, 1].map(relation).to_vec();
    query.sizes = [sizes[0], sizes[1], 3].map(Bytes).to_vec();
    query
}
