"""Queries that are solved, and their plans checked. Each case states what load prints, the cost, the trials and the plan."""
from script.queries import LONGEST, RELATIONS, SITES, alone, chain, closed, every, file, q, star
from script.records import LONGEST_PLAN, check, load, no_route, refused, solve, solved, steps

FREE = (1, 0, 0)


def needed(query, loaded):
    """The cells: one for each subquery that load tells, and each site that the file has."""
    return int(loaded.split()[2]) * query[0]


def found(query, loaded, cost, trials, plan, by=load):
    """The cells are just as many as are needed; the output has a byte more than the plan."""
    written = steps(plan)
    output = len(written) + 1
    yield by(query), [loaded]
    yield solve(needed(query, loaded), output), solved(cost, trials, written, output)
    yield check(written), [f"check {cost}"]


def beside(need, output, lines):
    """A cell less than is needed, as many, one more, and 4,096: the answer is one and the same."""
    yield solve(need - 1, output), refused(21)
    for cells in need, need + 1, 4096:
        yield solve(cells, output), lines


def pinned():
    """Rows 1 to 9 of rule 10.3."""
    yield from found(q(), "load 2 3", 21, 3, "l0 l1 s0 j0")
    yield from found(q(target=2), "load 2 3", 23, 3, "l0 l1 s0 j0 s2")
    yield from found(q(relations=[(0, 1), (1, 0)]), "load 2 3", 11, 3, "l0 l1 s0 j0")
    yield from found(q(sites=[(0, 2, 1)] + SITES[1:]), "load 2 3", 24, 3, "l0 s1 l1 j0 s0")
    yield from found(q(line=closed((1, 0))), "load 2 3", 23, 3, "l0 l1 s2 s0 j0")
    yield load(q(line=closed((1, 0), (2, 0)))), ["load 2 3"]
    yield from beside(9, LONGEST_PLAN, no_route(3))
    yield from found(q(line=every(*FREE)), "load 2 3", 19, 3, "l0 l1 s0 j0")
    yield from found(alone(0), "load 1 1", 0, 0, "l0")
    yield from found(alone(1), "load 1 1", 3, 0, "l0 s1")


# Sizes at and beside full parcels, and at the limit, with the parcels that they start.
PARCELS = {0: 0, 1: 1, 7: 1, 8: 1, 9: 2, 15: 2, 16: 2, 17: 3, 999_999_999: 125_000_000, 1_000_000_000: 125_000_000}


def parcels():
    """A send for 3 and 5 a parcel: of a relation, and of a result that was joined for 2 and 1 a byte."""
    for size, started in PARCELS.items():
        sent = 3 + 5 * started
        both = 2 + (size + size + size) + sent
        relations, lines = [(0, 0)] * 2, every(1, 3, 5)
        yield from found(file(SITES[:2], relations[:1], [], lambda subquery: size, lines, 1), "load 1 1", sent, 0, "l0 s1")
        sites = [SITES[0], (0, 2, 1)]
        yield from found(file(sites, relations, chain(2), lambda subquery: size, lines, 1), "load 2 3", both, 2, "l0 l1 j0 s1")
    # a parcel each, so that every site is as good; by the byte site 2 would be cheaper
    query = file(SITES, RELATIONS, chain(2), {1: 7, 2: 7, 3: 8}.get, every(1, 1, 1), 2)
    yield from found(query, "load 2 3", 28, 3, "l0 l1 s0 j0 s2")
    # 0 bytes are sent for the fixed amount alone
    query = file(SITES, RELATIONS, chain(2), {1: 10, 2: 0, 3: 3}.get, every(1, 1, 1), 0)
    yield from found(query, "load 2 3", 16, 3, "l0 l1 s0 j0")


def larger():
    # the chain of five of examples/chain-of-five.txt, a parcel for each of the paper's bytes
    five = {1: 100, 2: 400, 3: 80, 4: 700, 6: 311, 7: 62, 8: 1100, 12: 481, 14: 214, 15: 43, 16: 1600, 24: 733, 28: 321, 30: 143, 31: 29}
    query = file([FREE] * 6, [(r, 0) for r in range(5)], chain(5), lambda subquery: 8 * five[subquery], every(1, 10, 1), 5)
    yield from found(query, "load 5 15", 364, 120, "l0 s1 l1 j0 s2 l2 j1 s3 l3 j2 s4 l4 j3 s5")
    # a plan whose last join has two joined operands
    four = {1: 100, 2: 100, 4: 100, 8: 100, 3: 1, 12: 1, 6: 100, 7: 1000, 14: 1000, 15: 1000}
    query = file([FREE] * 5, [(r, 0) for r in range(4)], chain(4), four.get, every(1, 0, 1), 4)
    yield from found(query, "load 4 10", 28, 50, "l0 l1 s0 j0 s4 l2 l3 s2 j2 s4 j1")
    # ties: the lowest site, and the lowest join
    query = file([FREE] * 2, [(0, 0)] * 2, chain(2), lambda subquery: 1, every(*FREE), 1)
    yield from found(query, "load 2 3", 0, 2, "l0 l1 j0 s1")
    query = file([FREE], [(0, 0)] * 3, chain(3), lambda subquery: 1, None, 0)
    yield from found(query, "load 3 6", 0, 4, "l0 l1 l2 j1 j0")
    # the longest file
    yield from found(LONGEST, "load 9 264", 1_760_025_210_747, 8192, "l8 l6 l4 s0 l2 s0 l0 l1 s0 j0 j1 s3 l3 j2 s0 j3 l5 s0 j4 s6 j5 s0 l7 s0 j6 j7 s7")


CHAINS = [
    ("load 1 1", 2, 0, "l0 s1"),
    ("load 2 3", 2, 2, "l0 s1 l1 j0"),
    ("load 3 6", 4, 8, "l0 l1 s0 l2 j1 j0 s1"),
    ("load 4 10", 4, 20, "l0 s1 l1 l2 s1 l3 j2 j1 j0"),
    ("load 5 15", 6, 40, "l0 l1 s0 l2 l3 s0 l4 j3 j2 j1 j0 s1"),
    ("load 6 21", 6, 70, "l0 s1 l1 l2 s1 l3 l4 s1 l5 j4 j3 j2 j1 j0"),
    ("load 7 28", 8, 112, "l0 l1 s0 l2 l3 s0 l4 l5 s0 l6 j5 j4 j3 j2 j1 j0 s1"),
    ("load 8 36", 8, 168, "l0 s1 l1 l2 s1 l3 l4 s1 l5 l6 s1 l7 j6 j5 j4 j3 j2 j1 j0"),
    ("load 9 45", 10, 240, "l0 l1 s0 l2 l3 s0 l4 l5 s0 l6 l7 s0 l8 j7 j6 j5 j4 j3 j2 j1 j0 s1"),
]

STARS = [
    ("load 1 1", 2, 0, "l0 s1"),
    ("load 2 3", 2, 2, "l0 s1 l1 j0"),
    ("load 3 6", 2, 8, "l0 l2 j1 s1 l1 j0"),
    ("load 4 11", 2, 24, "l0 l2 j1 s1 l3 j2 l1 j0"),
    ("load 5 20", 2, 64, "l0 l4 j3 l2 j1 s1 l3 j2 l1 j0"),
    ("load 6 37", 2, 160, "l0 l4 j3 l2 j1 s1 l5 j4 l3 j2 l1 j0"),
    ("load 7 70", 2, 384, "l0 l6 j5 l4 j3 l2 j1 s1 l5 j4 l3 j2 l1 j0"),
    ("load 8 135", 2, 896, "l0 l6 j5 l4 j3 l2 j1 s1 l7 j6 l5 j4 l3 j2 l1 j0"),
    ("load 9 264", 2, 2048, "l0 l8 j7 l6 j5 l4 j3 l2 j1 s1 l7 j6 l5 j4 l3 j2 l1 j0"),
]


def shapes():
    """Chains and stars of one to nine relations over two sites: their subqueries, cells and trials."""
    for joins, cases in ((chain, CHAINS), (star, STARS)):
        for n, case in enumerate(cases, 1):
            query = file([FREE] * 2, [(r % 2, r % 2) for r in range(n)], joins(n), lambda subquery: 1, every(1, 1, 1), 1)
            yield from found(query, *case)
            loaded, cost, trials, plan = case
            written = steps(plan)
            yield from beside(needed(query, loaded), len(written), solved(cost, trials, written, len(written)))


def script():
    yield from pinned()
    yield from parcels()
    yield from larger()
    yield from shapes()
