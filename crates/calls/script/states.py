"""The state from call to call: what is refused by it, what a call leaves, and the limits of what is lent."""
from script.queries import Q_FROM_ROWS, chain, q
from script.records import LONGEST_PLAN, check, link, load, load_from_rows, no_route, refused, room, solve, solved, steps

WIDEST = 2**64 - 1

# The cheapest plan of Q, and of Q with the line from 1 to 0 closed.
BEST = steps("l0 l1 s0 j0")
DETOUR = steps("l0 l1 s2 s0 j0")


def script():
    # room needs no query
    yield room(2, 3, chain(2)), ["room 3 9 3"]
    yield room(10, 3, chain(2)), ["refused 2"]
    # 20: nothing is loaded, whatever else is wrong too
    yield link(0, 0, 2, WIDEST, WIDEST), ["refused 20"]
    yield solve(0, 0), refused(20)
    yield solve(0, 9), refused(20)
    yield solve(4096, 0), refused(20)
    yield solve(4096, 9), refused(20)
    yield check(b""), ["refused 20"]
    yield load(q() + b"\0"), ["refused 5"]
    yield solve(4096, 9), refused(20)
    yield load_from_rows(b"".join(Q_FROM_ROWS) + b"\0"), ["refused 5"]
    yield solve(4096, 9), refused(20)
    yield room(2, 3, chain(2)), ["room 3 9 3"]
    yield solve(4096, 9), refused(20)
    # Q; a refused call and a check leave the query, and the solve after them answers as the one before
    yield load(q()), ["load 2 3"]
    yield solve(9, 9), solved(21, 3, BEST, 9)
    yield check(BEST), ["check 21"]
    yield solve(4096, LONGEST_PLAN), solved(21, 3, BEST, LONGEST_PLAN)
    yield load(q() + b"\0"), ["refused 5"]
    yield solve(9, 9), solved(21, 3, BEST, 9)
    yield solve(8, 9), refused(21)
    yield solve(9, 8), refused(23)
    yield solve(9, 9), solved(21, 3, BEST, 9)
    yield link(1, 1, 2, 0, 0), ["refused 6"]
    yield link(0, 3, 1, 0, 0), ["refused 6"]
    yield link(WIDEST, 0, 1, 0, 0), ["refused 6"]
    yield link(2**32, 1, 1, 0, 0), ["refused 6"]
    yield link(1, 0, 2, 0, 0), ["refused 3"]
    yield link(1, 0, 0, 1_000_001, 0), ["refused 3"]
    yield link(1, 0, 0, 0, 2**32), ["refused 3"]
    yield solve(9, 10), solved(21, 3, BEST, 10)
    # solve and check follow the lines in force; more than can be lent is lent as all
    yield link(1, 0, 0, 1, 1), ["link"]
    yield solve(9, 9), refused(23)
    yield solve(8192, 2**32 - 1), solved(23, 3, DETOUR, 4096)
    yield check(BEST), ["refused 10 2"]
    yield check(DETOUR), ["check 23"]
    yield link(2, 0, 0, 0, 0), ["link"]
    yield solve(5000, LONGEST_PLAN), no_route(3)
    yield check(DETOUR), ["refused 10 3"]
    yield link(1, 0, 1, 1, 1), ["link"]
    yield solve(2**32 - 1, 9), solved(21, 3, BEST, 9)
    yield check(BEST), ["check 21"]
    yield check(DETOUR), ["refused 10 3"]
    # a load replaces the query with its lines
    yield load(q()), ["load 2 3"]
    yield check(DETOUR), ["check 23"]
    yield solve(9, 9), solved(21, 3, BEST, 9)
