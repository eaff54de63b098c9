"""Loads from rows: sizes that are worked out, files that are refused, and what stands before and after."""
from script.queries import Q_FROM_ROWS, RELATIONS, SITES, amount, chain, changed, closed, every, q, sections_from_rows, star
from script.records import check, link, load, load_from_rows, solve, solved, steps
from script.solves import found
from script.states import BEST, DETOUR

Q = b"".join(Q_FROM_ROWS)
MILLION = 1_000_000


def worked(joins, rows, divisors, *case):
    """At one site that joins for 1 a byte: a plan costs the sizes of all that its joins read and make."""
    parts = sections_from_rows([(1, 0, 1)], [(0, 0)] * len(rows), joins, rows, divisors, None, 0)
    return found(b"".join(parts), *case, by=load_from_rows)


def sizes():
    """Beside each case stand the sizes that are worked out, then the joins of the cheapest plan."""
    # {0, 1}: 10^12, cut to 10^9; {1, 2}: 1; all: 10^9 * 1 / 10^6 = 1,000
    # {1, 2} for 1,000,000 + 1 + 1, with 0 for 1,000,000 + 1 + 1,000; by {0, 1} it is 2 * 1,000,000 + 10^9, and 10^9 + 1 + 1,000
    yield from worked(chain(3), [MILLION, MILLION, 1], [1, MILLION], "load 3 6", 2_001_003, 4, "l0 l1 l2 j1 j0")
    yield check(steps("l0 l1 j0 l2 j1")), ["check 2002001001"]
    # all, by 0, 2, 1, 3: 3, 3 / 1, 3 / 2 so 2, 10 / 3 so 4; {1, 2}: 1 / 2 so 1; {0, 1, 2}: 2
    # {1, 2} for 1 + 1 + 1, with 0 for 3 + 1 + 2, with 3 for 2 + 5 + 4
    yield from worked([(0, 2), (2, 1), (0, 3)], [3, 1, 1, 5], [1, 2, 3], "load 4 10", 20, 10, "l0 l2 l1 j1 j0 l3 j2")
    # all, by 0, 1, 2: 1, 1 / 2 so 1, 3 / 1 (by 0, 2, 1 it would be 2); {0, 1}: 1
    # {0, 1} for 1 + 1 + 1, with 2 for 1 + 3 + 3
    yield from worked([(0, 2), (0, 1)], [1, 1, 3], [1, 2], "load 3 6", 10, 4, "l0 l1 j1 l2 j0")
    # all: 1, 1 / 2 so 1, 5 / 2 so 3 (rounded at the end alone it would be 2); {0, 1}: 1
    # {0, 1} for 1 + 1 + 1, with 2 for 1 + 5 + 3
    yield from worked(chain(3), [1, 1, 5], [2, 2], "load 3 6", 12, 4, "l0 l1 j0 l2 j1")
    # {0, 1}: 10^9, not cut; {1, 2}: 1,001,000,000, cut to 10^9; all: 10^9
    # {1, 2} for 1,000,000 + 1,001 + 10^9, with 0 for 1,000 + 2 * 10^9; by {0, 1} it is as much, and join 0 the lowest
    yield from worked(chain(3), [1_000, MILLION, 1_001], [1, 1], "load 3 6", 3_001_002_001, 4, "l0 l1 l2 j1 j0")
    # the chain 4, 0, 3, 1, 2; all, by 0, 3, 1, 2, 4: 3, 12 / 3, 8 / 4, 10 / 2, 35 / 2 so 18; {1, 3}: 2; {0, 1, 3}: 2; {0, 1, 2, 3}: 5
    # {1, 3} for 4 + 2 + 2, with 0 for 3 + 2 + 2, with 2 for 2 + 5 + 5, with 4 for 7 + 5 + 18
    yield from worked([(4, 0), (0, 3), (3, 1), (1, 2)], [3, 2, 5, 4, 7], [2, 3, 4, 2], "load 5 15", 57, 20, "l4 l0 l3 l1 j2 j1 l2 j3 j0")
    # a star around 8: a leaf comes first, then 8: 4 / 3 so 2; each further leaf makes 4 / 3 of it: 3, 4, 6, 8, 11, 15, 20
    # the first join for 1 + 4 + 2, then 2 + 4 + 3, 3 + 4 + 4, 4 + 4 + 6, 6 + 4 + 8, 8 + 4 + 11, 11 + 4 + 15, 15 + 4 + 20
    leaves = " ".join(f"l{leaf} j{leaf}" for leaf in range(7, -1, -1))
    yield from worked([(8, leaf) for leaf in range(8)], [4] * 8 + [1], [3] * 8, "load 9 264", 151, 1024, f"l8 {leaves}")
    # all 1, and all at the limit: every size is 1, and 1,000,000
    yield from worked(star(4), [1] * 4, [1] * 3, "load 4 11", 9, 12, "l0 l3 j2 l2 j1 l1 j0")
    yield from worked(chain(4), [MILLION] * 4, [MILLION] * 3, "load 4 10", 9 * MILLION, 10, "l0 l1 l2 l3 j2 j1 j0")
    # one relation, with a lone 0 for Divisors: 9 bytes start two parcels
    alone = b"".join(sections_from_rows(SITES, RELATIONS[:1], [], [9], [], every(1, 1, 1), 1))
    yield from found(alone, "load 1 1", 3, 0, "l0 s1", by=load_from_rows)


def ended(*parts):
    """Q's sections up to Joins, and what stands behind them."""
    return b"".join(Q_FROM_ROWS[:3]) + b"".join(parts)


SELF_JOIN = b"".join(Q_FROM_ROWS[:2]) + b"\x01\x01\x01"

REFUSED = [
    (b"", 1),  # the first count is cut
    (ended(), 1),  # the count of Rows is cut
    (ended(b"\x02\x00\x00\x00"), 1),  # a row count is cut
    (ended(Q_FROM_ROWS[3]), 1),  # the count of Divisors is cut
    (ended(Q_FROM_ROWS[3], b"\x01\xff\xff\xff"), 1),  # a divisor is cut
    (Q[:-1], 1),  # the query site is cut
    (changed(Q_FROM_ROWS, 3, 0, b"\x01"), 2),  # one row count of two relations
    (changed(Q_FROM_ROWS, 3, 0, b"\x03"), 2),  # three of them
    (changed(Q_FROM_ROWS, 4, 0, b"\x00"), 2),  # no divisor of one join
    (changed(Q_FROM_ROWS, 4, 0, b"\x02" + amount(0)), 2),  # two of them, before the value is judged
    (changed(Q_FROM_ROWS, 5, 0, b"\x05"), 2),  # five lines of three sites
    (q(), 2),  # a file for load, with three sizes
    (changed(Q_FROM_ROWS, 3, 1, amount(0)), 3),  # a row count of 0
    (changed(Q_FROM_ROWS, 3, 5, amount(0)), 3),  # another one
    (changed(Q_FROM_ROWS, 3, 1, amount(1_000_001)), 3),  # a row count too large
    (changed(Q_FROM_ROWS, 3, 5, amount(2**32 - 1)), 3),  # the largest that four bytes hold
    (changed(Q_FROM_ROWS, 4, 1, amount(0)), 3),  # a divisor of 0
    (changed(Q_FROM_ROWS, 4, 1, amount(1_000_001)), 3),  # a divisor too large
    (ended(b"\x02", amount(0)), 3),  # a row count of 0 at the very end
    (changed(Q_FROM_ROWS, 6, 1, b"\x03"), 3),  # a query site that is not listed
    (changed(Q_FROM_ROWS, 2, 1, b"\x01\x01"), 4),  # a self-join
    (SELF_JOIN, 4),  # a self-join, then a cut
    (SELF_JOIN + b"\x03", 4),  # a self-join, then a wrong count of Rows
    (SELF_JOIN + b"\x02" + amount(0), 4),  # a self-join, then a row count of 0
    (Q + b"\x00", 5),  # a byte after Delivery
]


def refused():
    """The query before stays, whichever load it came by."""
    parts = sections_from_rows(SITES, RELATIONS, chain(2), [10, 4], [16], closed((1, 0)), 0)
    for before in load(q(line=closed((1, 0)))), load_from_rows(b"".join(parts)):
        yield before, ["load 2 3"]
        for bytes_given, number in REFUSED:
            yield load_from_rows(bytes_given), [f"refused {number}"]
        yield solve(9, 11), solved(23, 3, DETOUR, 11)
    # a file from rows is none for load: its count of Sizes would be 2 + 256 * 10
    yield load(Q), ["refused 2"]
    yield solve(9, 11), solved(23, 3, DETOUR, 11)


def before_and_after():
    """Check and link follow the query from rows; a load of either kind replaces it with its lines."""
    for again in load_from_rows(Q), load(q()), load_from_rows(Q):
        yield again, ["load 2 3"]
        yield solve(9, 9), solved(21, 3, BEST, 9)
        yield check(BEST), ["check 21"]
        yield check(DETOUR), ["check 23"]
        yield link(1, 0, 0, 1, 1), ["link"]
        yield check(BEST), ["refused 10 2"]
        yield solve(9, 11), solved(23, 3, DETOUR, 11)


def script():
    yield from sizes()
    yield from refused()
    yield from before_and_after()
