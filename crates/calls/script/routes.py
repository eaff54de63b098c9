"""Results that are sent by way of other sites: by the cheapest route, of equal ones by the fewest sends, then by the lowest next site."""
from script.queries import SITES, chain, every, file, q
from script.records import check, steps
from script.solves import FREE, found

BARRED, CLOSED = (0, 0, 0), (0, 0, 0)


def only(lines):
    """These lines; the others are closed."""
    return lambda a, b: lines.get((a, b), CLOSED)


def alone(s, size, line, target):
    """A relation at site 0, and no site that may join."""
    return file([BARRED] * s, [(0, 0)], [], lambda subquery: size, line, target)


def by_size():
    """The direct line takes 10 a parcel, the way by site 1 takes 10 and 10, whatever the size."""
    line = only({(0, 2): (1, 0, 10), (0, 1): (1, 10, 0), (1, 2): (1, 10, 0)})
    for size, cost, plan in (0, 0, "l0 s2"), (8, 10, "l0 s2"), (16, 20, "l0 s2"), (17, 20, "l0 s1 s2"), (33, 20, "l0 s1 s2"):
        yield from found(alone(3, size, line, 2), "load 1 1", cost, 0, plan)
    # each operand by its own size: 10 for 8 bytes and 20 for 33, to the only site that may join
    relations = [(0, 0)] * 2
    yield from found(file([BARRED, BARRED, FREE], relations, chain(2), {1: 8, 2: 33, 3: 1}.get, line, 2), "load 2 3", 30, 3, "l0 s2 l1 s1 s2 j0")
    # and a joined result by its own
    yield from found(file([FREE, BARRED, BARRED], relations, chain(2), {1: 8, 2: 8, 3: 33}.get, line, 2), "load 2 3", 20, 3, "l0 l1 j0 s1 s2")


def ties():
    one = (1, 1, 0)
    # 0-1-4-5 and 0-2-3-5: the lowest next site is asked for from the sender on
    yield from found(alone(6, 5, only(dict.fromkeys([(0, 1), (1, 4), (4, 5), (0, 2), (2, 3), (3, 5)], one)), 5), "load 1 1", 3, 0, "l0 s1 s4 s5")
    # 0-1-2-4 and 0-3-4: the fewest sends come first
    yield from found(alone(5, 5, only({(0, 1): one, (1, 2): FREE, (2, 4): one, (0, 3): one, (3, 4): one}), 4), "load 1 1", 2, 0, "l0 s3 s4")
    # free lines make no tours
    yield from found(alone(8, 5, every(*FREE), 7), "load 1 1", 0, 0, "l0 s7")
    yield from found(alone(8, 5, every(*FREE), 0), "load 1 1", 0, 0, "l0")
    # the lowest site to join at, though it is two sends away from where the result goes and the next only one
    query = file([FREE] * 3, [(0, 0)] * 2, chain(2), lambda subquery: 5, only({(0, 1): FREE, (1, 2): FREE}), 2)
    yield from found(query, "load 2 3", 0, 3, "l0 l1 j0 s1 s2")
    yield check(steps("l0 s1 l1 s1 j0 s2")), ["check 0"]


def rings():
    """A send to the next site alone, for 3 and 2 a parcel: as many sends as there are sites, but for one."""
    for s in range(2, 9):
        ring = lambda a, b: (int(b == (a + 1) % s), 3, 2)  # noqa: B023
        sends = " ".join(f"s{site}" for site in range(1, s))
        yield from found(alone(s, 9, ring, s - 1), "load 1 1", 7 * (s - 1), 0, f"l0 {sends}")


def script():
    # Q where site 2 joins for nothing: 3 for relation 0, 2 for relation 1 and 2 for the result
    yield from found(q(sites=SITES[:2] + [FREE]), "load 2 3", 7, 3, "l0 s2 l1 s2 j0 s0")
    yield from by_size()
    yield from ties()
    yield from rings()
