"""What is lent to solve: outputs of every length around a plan's, cells around what is needed, and which of them is judged first."""
from script.queries import chain, closed, every, file, q, star
from script.records import LONGEST_PLAN, link, load, no_route, refused, room, solve, solved, steps
from script.solves import FREE, beside
from script.states import BEST, DETOUR

# Row 6 of rule 10.3.
WITHOUT_ROUTE = q(line=closed((1, 0), (2, 0)))


def into(outputs, cells, cost, trials, plan):
    """The same solve into outputs of several lengths."""
    for output in outputs:
        fits = len(plan) <= output
        yield solve(cells, output), solved(cost, trials, plan, output) if fits else refused(23)


def longest_plan():
    """The query of examples/longest-plan.txt, each of whose joins is cheapest at the next site, seven sends away."""

    def size(subquery):
        relations = bin(subquery).count("1")
        return 4 ** (relations - 1) if relations == 1 or subquery & 1 else 1_000_000_000

    sites = [(1, 10 * (4**k - 1) // 3, 7 - k) for k in range(8)]
    homes = [7, 7, 0, 1, 2, 3, 4, 5, 6]
    return file(sites, [(home, 0) for home in homes], chain(9), size, lambda a, b: (int(b == (a - 1) % 8), 0, 0), 0)


def outputs():
    """From no byte to one more than the plan has, for rows 1 and 5 of rule 10.3; and beside the longest plan."""
    yield load(q()), ["load 2 3"]
    yield from into(range(11), 9, 21, 3, BEST)
    yield load(q(line=closed((1, 0)))), ["load 2 3"]
    yield from into(range(13), 9, 23, 3, DETOUR)
    # seven sends bring every relation and every joined result to the next site
    around = [" ".join(f"s{(site - i) % 8}" for i in range(2, 9)) for site in range(8)]
    joined = [f"l{r} {around[r - 1]} j{r - 1} {around[r % 8]}" for r in range(1, 9)]
    yield load(longest_plan()), ["load 9 45"]
    yield from into((LONGEST_PLAN - 1, LONGEST_PLAN, LONGEST_PLAN + 1), 360, 109_213, 960, steps(f"l0 {around[0]} " + " ".join(joined)))
    # with no route no output is too short
    yield load(WITHOUT_ROUTE), ["load 2 3"]
    for output in 0, 1, 9, 13, 4096:
        yield solve(9, output), no_route(3)


# Q needs 9 cells, one for each of its 3 subqueries and 3 sites: of subqueries alone there are 3, of relations at each site 6.
FEW = 0, 1, 3, 6, 8
ENOUGH = 9, 10, 2112, 4095, 4096, 5000, 8192


def cells():
    """Too few cells are refused before an output that is too short, and before no route."""
    yield load(q()), ["load 2 3"]
    for few in FEW:
        for output in 9, 8, 0:
            yield solve(few, output), refused(21)
    for enough in ENOUGH:
        yield solve(enough, 9), solved(21, 3, BEST, 9)
        yield solve(enough, 8), refused(23)
        yield solve(enough, 0), refused(23)
    yield load(WITHOUT_ROUTE), ["load 2 3"]
    for few in FEW:
        for output in 9, 0:
            yield solve(few, output), refused(21)
    for enough in ENOUGH:
        for output in 9, 0:
            yield solve(enough, output), no_route(3)


def free(n, s, joins):
    """Everything at site 0, and asked for at the last: all plans cost nothing, so that each choice is a tie."""
    return file([FREE] * s, [(0, 0)] * n, joins, lambda subquery: 1, every(*FREE), s - 1)


# A chain of nine at eight sites: the lowest join is taken first, so that it comes last; what is joined at site 0 is sent to 7.
CHAIN = steps("l0 l1 l2 l3 l4 l5 l6 l7 l8 j7 j6 j5 j4 j3 j2 j1 j0 s7")


def needs():
    """A cell less than is needed, as many, one more, and 4,096."""
    # one relation: a cell for each site
    for s in range(1, 9):
        plan = steps("l0" if s == 1 else f"l0 s{s - 1}")
        yield load(free(1, s, [])), ["load 1 1"]
        yield from beside(s, len(plan), solved(0, 0, plan, len(plan)))
    # 45 subqueries
    yield load(free(9, 8, chain(9))), ["load 9 45"]
    yield from beside(360, 37, solved(0, 960, CHAIN, 37))
    # 264 subqueries, the most
    leaves = " ".join(f"l{leaf} j{leaf - 1}" for leaf in range(8, 0, -1))
    yield load(free(9, 8, star(9))), ["load 9 264"]
    yield from beside(2112, 37, solved(0, 8192, steps(f"l0 {leaves} s7"), 37))
    # neither a chain nor a star
    joins = [(0, 1), (0, 2), (0, 3), (1, 4), (1, 5), (3, 6), (3, 7)]
    plan = steps("l0 l3 l7 j6 l6 j5 j2 l2 j1 l1 l5 j4 l4 j3 j0 s2")
    yield load(free(8, 3, joins)), ["load 8 63"]
    yield from beside(189, 33, solved(0, 579, plan, 33))
    # a site that may not join has its cells too
    yield load(q(sites=[(1, 2, 1), (1, 2, 1), (0, 2, 1)])), ["load 2 3"]
    yield from beside(9, 9, solved(21, 3, BEST, 9))


def in_force():
    """The need is that of the query in force: not of one before it, nor of a file or a draft that came to nothing."""
    many, few = free(9, 8, chain(9)), q()
    yield load(many), ["load 9 45"]
    yield solve(9, 37), refused(21)
    yield load(few[:-1]), ["refused 1"]
    yield room(2, 3, chain(2)), ["room 3 9 3"]
    yield from beside(360, 37, solved(0, 960, CHAIN, 37))
    yield load(few), ["load 2 3"]
    yield load(many[:-1]), ["refused 1"]
    yield room(9, 8, chain(9)), ["room 45 360 960"]
    yield from beside(9, 9, solved(21, 3, BEST, 9))
    # a link leaves it
    yield link(1, 0, 0, 1, 1), ["link"]
    yield from beside(9, 11, solved(23, 3, DETOUR, 11))
    yield from beside(9, 10, refused(23))


def script():
    yield from outputs()
    yield from cells()
    yield from needs()
    yield from in_force()
