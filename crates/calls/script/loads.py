"""Files that load refuses, by the fault that it meets first; and files that it takes, with every field kept in its place."""
from script.queries import LONGEST, Q, amount, file, q, q_with
from script.records import check, load, solve, solved, steps


def drawn(*joins):
    """Four relations at site 0 with these joins, cut after the joins."""
    return Q[0] + bytes([4]) + bytes([0, 0] * 4) + bytes([3]) + b"".join(bytes(join) for join in joins)


REFUSED = [
    (b"", 1),  # the first count is cut
    (q()[:9], 1),  # a rate is cut
    (q()[:28], 1),  # the count of Relations is cut
    (q()[:-1], 1),  # the query site is cut
    (Q[0] + Q[1] + Q[2] + b"\x03", 1),  # the count of Sizes is cut
    (q_with(0, 0, b"\x00"), 2),  # no sites
    (q_with(0, 0, b"\x09"), 2),  # nine sites
    (q_with(1, 0, b"\x0a"), 2),  # ten relations
    (q_with(2, 0, b"\x02"), 2),  # two joins of two relations
    (q_with(3, 0, b"\x03\x01"), 2),  # 259 sizes
    (q_with(4, 0, b"\x05"), 2),  # five lines of three sites
    (q_with(5, 0, b"\x02"), 2),  # two deliveries
    (q_with(0, 1, b"\x02"), 3),  # a flag of 2
    (q_with(0, 2, amount(1_000_001)), 3),  # a fixed amount too large
    (q_with(0, 6, amount(1_001)), 3),  # a rate too large
    (q_with(3, 2, amount(1_000_000_001)), 3),  # a size too large
    (q_with(1, 1, b"\x03"), 3),  # a home that is not listed
    (q_with(2, 2, b"\x02"), 3),  # a join with a relation that is not there
    (q_with(4, 46, b"\x02"), 3),  # a flag of the last line
    (q_with(5, 1, b"\x03"), 3),  # a query site that is not listed
    (q()[:1] + b"\x02", 3),  # a flag out of range at the very end
    (Q[0] + Q[1] + b"\x01\x02", 3),  # the first end out of range, the second cut
    (q_with(2, 1, b"\x01\x01"), 4),  # a self-join
    (drawn((0, 1), (2, 3), (3, 2)), 4),  # joins that do not reach, then a cut
    (drawn((0, 1), (2, 3), (3, 1)), 1),  # joins that reach, then a cut
    (drawn((0, 0), (2, 3), (3,)), 1),  # a self-join, then a cut join
    (q() + b"\x00", 5),  # a byte after Delivery
]


def refused():
    yield load(q()), ["load 2 3"]
    for bytes_given, number in REFUSED:
        yield load(bytes_given), [f"refused {number}"]
    yield solve(9, 9), solved(21, 3, steps("l0 l1 s0 j0"), 9)


def in_place():
    """Costs that add up the amounts of every line and of every site, and read every relation's home and index."""
    yield load(LONGEST), ["load 9 264"]
    # four plans that between them send over each of the 56 lines
    yield check(steps("l0 s1 l6 s1 j5 s3 l5 s3 j4 s0 l7 s0 j6 s5 l1 s5 j0 s7 l4 s7 j3 s5 l2 s5 j1 s2 l3 s2 j2 s3 l8 s3 j7 s7")), ["check 3390206881430"]
    yield check(steps("l0 s4 l3 s4 j2 s2 l7 s2 j6 s7 l8 s7 j7 s4 l2 s4 j1 s5 l6 s5 j5 s6 l1 s6 j0 s3 l4 s3 j3 s1 l5 s1 j4 s7")), ["check 5171790637646"]
    yield check(steps("l0 s4 l5 s4 j4 s1 l7 s1 j6 s0 l2 s0 j1 s6 l3 s6 j2 s2 l8 s2 j7 s6 l4 s6 j3 s4 l1 s4 j0 s0 l6 s0 j5 s7")), ["check 4280004253322"]
    yield check(steps("l0 s2 l3 s2 j2 s0 l5 s0 j4 s3 l7 s3 j6 s5 l4 s5 j3 s2 l1 s2 j0 s1 l8 s1 j7 s7 l6 s7 j5 s6 l2 s6 j1 s7")), ["check 3725947381430"]
    # one that sends no bare relation, so that the indexes of 0, 3 and 6 spare their reads
    yield check(steps("l0 l8 j7 s1 l1 j0 s2 l2 j1 s3 l3 j2 s4 l4 j3 s5 l5 j4 s6 l6 j5 s7 l7 j6")), ["check 4553708454119"]


def at_the_limits():
    """The largest amounts are taken, and zero is."""
    yield load(file([(1, 1_000_000, 1_000)], [(0, 1), (0, 0), (0, 1)], [(2, 1), (1, 0)], lambda subquery: subquery % 2 * 1_000_000_000, None, 0)), ["load 3 6"]
    yield check(steps("l2 l1 j0 l0 j1")), ["check 1000002000000"]


def spread():
    """A tree that is neither a chain nor a star."""
    joins = [(0, 1), (0, 2), (0, 3), (1, 4), (1, 5), (3, 6), (3, 7)]
    yield load(file([(1, 0, 0)], [(0, 0)] * 8, joins, lambda subquery: 1, None, 0)), ["load 8 63"]


def script():
    yield from refused()
    yield from in_place()
    yield from at_the_limits()
    yield from spread()
