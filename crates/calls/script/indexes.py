"""Joins of relations with indexes, solved and checked. A join follows one index: of two that qualify the smaller is read."""
from script.queries import SITES, chain, every, file, sections_from_rows
from script.records import check, load_from_rows, steps
from script.solves import FREE, found

BOTH, FIRST, SECOND, NEITHER = (1, 1), (1, 0), (0, 1), (0, 0)

# The sizes of two relations at site 0, which have an index, and what their join reads.
AT_ONE_HOME = [
    ((10, 4), BOTH, 4),
    ((4, 10), BOTH, 4),
    ((5, 5), BOTH, 5),
    ((0, 0), BOTH, 0),
    ((0, 10), BOTH, 0),
    ((10, 0), BOTH, 0),
    ((1_000_000_000, 1_000_000_000), BOTH, 1_000_000_000),
    ((10, 4), FIRST, 4),
    ((10, 4), SECOND, 10),
    ((10, 4), NEITHER, 14),
]


def pair(sizes, index, homes=(0, 0), sites=SITES, lines=every(1, 1, 1)):
    """Q with other relations; the result has 3 bytes."""
    first, second = sizes
    return file(sites, list(zip(homes, index)), chain(2), {1: first, 2: second, 3: 3}.get, lines, 0)


def at_one_home():
    """Whichever of the two lies on top."""
    for sizes, index, read in AT_ONE_HOME:
        cost = 2 + read + 3
        yield from found(pair(sizes, index), "load 2 3", cost, 3, "l0 l1 j0")
        yield check(steps("l1 l0 j0")), [f"check {cost}"]
    # the sizes from rows: 10 * 4 / 16 is 2.5, so 3
    rows = b"".join(sections_from_rows(SITES, [(0, 1)] * 2, chain(2), [10, 4], [16], every(1, 1, 1), 0))
    yield from found(rows, "load 2 3", 9, 3, "l0 l1 j0", by=load_from_rows)


def sent():
    """A relation that was sent does not qualify. 10 bytes are sent for 3, 4 bytes and the result for 2 each."""
    # both from one home: 3 + 2 + (2 + 10 + 4 + 3) + 2
    yield from found(pair((10, 4), BOTH, sites=[(0, 2, 1)] + SITES[1:]), "load 2 3", 26, 3, "l0 s1 l1 s1 j0 s0")
    # two homes: at the larger's 2 + (2 + 4 + 3), at the smaller's 3 + (2 + 10 + 3) + 2, away from both as above
    yield from found(pair((10, 4), BOTH, homes=(0, 1)), "load 2 3", 11, 3, "l0 l1 s0 j0")
    yield check(steps("l0 s1 l1 j0 s0")), ["check 20"]
    yield check(steps("l0 s2 l1 s2 j0 s0")), ["check 26"]
    # nor does it at home again: 2 + 4 + 3 by its index, 2 + 100 + 4 + 3 without
    yield from found(pair((100, 4), FIRST, lines=every(*FREE)), "load 2 3", 9, 3, "l0 l1 j0")
    yield check(steps("l0 s1 s0 l1 j0")), ["check 109"]


def three():
    """A joined result does not qualify: of two joins in a row only the first can have two that do."""
    # {1, 2} for 2 + 1 + 5, with 0 for 2 + 5 + 1; {0, 1} for 2 + 10 + 3, with 2 for 2 + 3 + 1 + 1
    sizes = {1: 10, 2: 10, 3: 3, 4: 1, 6: 5, 7: 1}
    yield from found(file(SITES[:1], [(0, 1), (0, 1), (0, 0)], chain(3), sizes.get, None, 0), "load 3 6", 16, 4, "l0 l1 l2 j1 j0")
    yield check(steps("l0 l1 j0 l2 j1")), ["check 22"]
    # all indexed, and 4 bytes of relation 2: {0, 1} for 2 + 10 + 3, with 2 for 2 + 3 + 1; {1, 2} for 2 + 4 + 5, with 0 for 2 + 5 + 1
    sizes[4] = 4
    yield from found(file(SITES[:1], [(0, 1)] * 3, chain(3), sizes.get, None, 0), "load 3 6", 19, 4, "l0 l1 l2 j1 j0")
    yield check(steps("l0 l1 j0 l2 j1")), ["check 21"]


def script():
    yield from at_one_home()
    yield from sent()
    yield from three()
