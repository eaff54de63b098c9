//! Queries in which results take routes of several sends, or might, with the cheapest plan of
//! each worked out by hand.

use crate::pinned::{self, Worked};
use crate::query::{Line, Query};
use crate::units::{Charge, Rate};

/// An open line, by its ends, fixed amount and rate.
type Open = (usize, usize, u64, u64);

pub fn worked() -> Vec<Worked> {
    let mut worked = by_size();
    worked.extend(ties());
    worked.extend(ways_round());
    worked.extend([joined_elsewhere(), higher_site_with_fewer_sends()]);
    worked.extend(whole_and_parts());
    worked
}

/// Relation 0 goes from site 0 to site 2: by the line for 0 + 10 a parcel, or by way of site 1
/// for 10 + 10. With two parcels both cost 20, and the line has fewer sends.
pub fn by_size() -> Vec<Worked> {
    let cases = [
        ("0 bytes", 0, 0, false),
        ("8 bytes", 8, 10, false),
        ("16 bytes", 16, 20, false),
        ("17 bytes", 17, 20, true),
        ("33 bytes", 33, 20, true),
    ];
    let case = |(what, size, cost, by_way)| {
        let query = one_relation(3, size, &FIXED_OR_RATE, 2);
        let stops: &[u8] = if by_way { &[1, 2] } else { &[2] };
        Worked { what, query, plan: sent(stops), cost }
    };
    cases.map(case).into()
}

const FIXED_OR_RATE: [Open; 3] = [(0, 2, 0, 10), (0, 1, 10, 0), (1, 2, 10, 0)];

/// Relation 0 goes from site 0 to the last over lines of which several routes cost the same.
pub fn ties() -> Vec<Worked> {
    let case = |what, sites, lines: &[Open], stops: &[u8], cost| {
        let query = one_relation(sites, 10, lines, sites - 1);
        Worked { what, query, plan: sent(stops), cost }
    };
    let lower_next =
        [(0, 1, 1, 0), (1, 4, 1, 0), (4, 5, 1, 0), (0, 2, 1, 0), (2, 3, 1, 0), (3, 5, 1, 0)];
    let lower_later = [(0, 1, 1, 0), (1, 2, 1, 0), (1, 3, 1, 0), (2, 4, 1, 0), (3, 4, 1, 0)];
    let line_or_way = [(0, 3, 3, 0), (0, 1, 1, 0), (1, 2, 1, 0), (2, 3, 1, 0)];
    let two_or_three = [(0, 3, 2, 0), (3, 4, 1, 0), (0, 1, 1, 0), (1, 2, 1, 0), (2, 4, 1, 0)];
    vec![
        case("the lower next site", 6, &lower_next, &[1, 4, 5], 3),
        case("the lower site after that", 5, &lower_later, &[1, 2, 4], 3),
        case("a line or three sends", 4, &line_or_way, &[3], 3),
        case("two sends or three with a lower next site", 5, &two_or_three, &[3, 4], 3),
    ]
}

/// Row 5, where the line from 1 to 0 is closed; a site that may not join and is passed; lines
/// down from site to site; eight sites one way round; and free lines on which nothing is sent
/// that is wanted where it stands.
pub fn ways_round() -> Vec<Worked> {
    let (row_5, _) = pinned::rows().swap_remove(4);
    let mut passed = pinned::q();
    passed.relations[1].home = 2;
    passed.sites[0].may_join = false;
    passed.sites[1].may_join = false;
    passed.line_mut(0, 2).open = false;
    passed.delivery = 2;
    let mut down = one_relation(3, 10, &[(2, 1, 1, 1), (1, 0, 1, 1)], 0);
    down.relations[0].home = 2;
    let ring: Vec<Open> = (0..8).map(|site| (site, (site + 1) % 8, 1, 1)).collect();
    let mut round = one_relation(8, 10, &ring, 0);
    round.relations[0].home = 1;
    let mut free = pinned::q();
    free.relations[1].home = 0;
    free.lines = pinned::equal_lines(3, 0, 0);
    let case = |what, query, plan: &[u8], cost| Worked { what, query, plan: plan.to_vec(), cost };
    vec![
        case("row 5", row_5, &[5, 1, 0, 1, 1, 2, 2, 2, 0, 3, 0], 2 + 2 + 19),
        case("a site passed", passed, &[5, 1, 0, 2, 1, 2, 2, 1, 1, 3, 0], 3 + 3 + 19),
        case("down", down, &sent(&[1, 0]), 2 * (1 + 2)),
        case("seven sends", round, &sent(&[2, 3, 4, 5, 6, 7, 0]), 7 * (1 + 2)),
        case("no tours", free, &[3, 1, 0, 1, 1, 3, 0], 19),
    ]
}

/// Q, where site 2 joins for nothing: both relations are sent there and the result back. Joined
/// at a home it costs 21, as ever.
pub fn joined_elsewhere() -> Worked {
    let mut query = pinned::q();
    (query.sites[2].fixed, query.sites[2].rate) = (Charge(0), Rate(0));
    let plan = vec![6, 1, 0, 2, 2, 1, 1, 2, 2, 3, 0, 2, 0];
    Worked { what: "joined elsewhere", query, plan, cost: 3 + 2 + 2 }
}

/// Everything is free, and only site 1 has a line to the query site 2. Joined at site 0 the
/// result takes two sends, at site 1 one and at site 2 none; the lowest site is taken.
pub fn higher_site_with_fewer_sends() -> Worked {
    let mut query = pinned::q();
    query.sites = pinned::equal_sites(3, 0, 0);
    query.lines = pinned::equal_lines(3, 0, 0);
    query.line_mut(0, 2).open = false;
    query.delivery = 2;
    let plan = vec![6, 1, 0, 1, 1, 2, 0, 3, 0, 2, 1, 2, 2];
    Worked { what: "a higher site with fewer sends", query, plan, cost: 0 }
}

/// Two relations are joined for nothing at site 0, where they stand, and the result goes to site
/// 2 as its own size says (`by_size`), whatever theirs.
pub fn whole_and_parts() -> [Worked; 2] {
    let query = |sizes: &[u64]| {
        Query::new(
            pinned::equal_sites(3, 0, 0),
            pinned::homes(&[0, 0]),
            pinned::chain(2),
            pinned::sizes(sizes),
            lines(3, &FIXED_OR_RATE),
            2,
        )
    };
    [
        Worked {
            what: "a small result of large relations",
            query: query(&[33, 33, 8]),
            plan: vec![4, 1, 0, 1, 1, 3, 0, 2, 2],
            cost: 10,
        },
        Worked {
            what: "a large result of small relations",
            query: query(&[8, 8, 33]),
            plan: vec![5, 1, 0, 1, 1, 3, 0, 2, 1, 2, 2],
            cost: 20,
        },
    ]
}

/// One relation of this size at site 0; all lines but these are closed.
fn one_relation(sites: usize, size: u64, open: &[Open], delivery: usize) -> Query {
    Query::new(
        pinned::equal_sites(sites, 0, 0),
        pinned::homes(&[0]),
        pinned::chain(1),
        pinned::sizes(&[size]),
        lines(sites, open),
        delivery,
    )
}

/// All lines but these are closed.
fn lines(sites: usize, open: &[Open]) -> Vec<Line> {
    let line = |ends| {
        let found = open.iter().find(|&&(sender, receiver, ..)| (sender, receiver) == ends);
        let &(_, _, fixed, rate) = found.unwrap_or(&(0, 0, 0, 0));
        Line { open: found.is_some(), fixed: Charge(fixed), rate: Rate(rate) }
    };
    Query::line_ends(sites).map(line).collect()
}

/// The plan that loads relation 0 and sends it to these sites.
fn sent(stops: &[u8]) -> Vec<u8> {
    let sends = stops.iter().flat_map(|&stop| [2, stop]);
    [1 + stops.len() as u8, 1, 0].into_iter().chain(sends).collect()
}
