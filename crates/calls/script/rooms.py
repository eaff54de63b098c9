"""Room: figures that are told of drafts, drafts that are refused, and room between other calls."""
from script.queries import chain, q, star
from script.records import check, link, load, load_from_rows, room, solve, solved
from script.states import BEST, DETOUR, WIDEST

# n, s, joins, and what is told: rule 14.11.
WORKED = [
    (2, 3, [(0, 1)], "room 3 9 3"),
    (4, 1, [(0, 2), (2, 1), (0, 3)], "room 10 10 10"),
    (4, 2, [(3, 0), (1, 3), (3, 2)], "room 11 22 24"),
    (9, 8, chain(9), "room 45 360 960"),
    (9, 8, star(9), "room 264 2112 8192"),
    (1, 8, [], "room 1 8 0"),
    # neither a chain nor a star: with relation 0 there are 5 * 2 * 5 subqueries, which have 235 relations; with 1 or 3 and
    # not 0 there are 4 each, which have 8; and 5 more relations alone: 63 and 256, so 193 trials at a site
    (8, 3, [(0, 1), (0, 2), (0, 3), (1, 4), (1, 5), (3, 6), (3, 7)], "room 63 189 579"),
]

REFUSED = [
    (259, 1, chain(3), 2),  # n by its low byte would be 3
    (3, 1, bytes([9, 1, 1, 2, 0]), 2),  # five bytes, of which the first is out of range
    (3, 1, [(0, 1), (0, 3)], 3),  # a relation that is not there
    (3, 1, [(0, 1), (2, 2)], 4),  # a self-join
    (0, 1, [], 2),  # no relations
    (10, 1, chain(10), 2),  # ten relations
    (2**32 + 3, 1, chain(3), 2),  # wide numbers
    (2**63, 1, [], 2),
    (WIDEST, 1, [], 2),
    (2, 0, chain(2), 2),  # no sites
    (2, 9, chain(2), 2),  # nine sites
    (2, 264, chain(2), 2),  # s by its low byte would be 8
    (2, 2**32 + 8, chain(2), 2),
    (2, WIDEST, chain(2), 2),
    (1, 1, bytes(1), 2),  # a byte too many, and a pair
    (1, 1, bytes(2), 2),
    (2, 1, b"", 2),  # no joins of two relations
    (3, 1, bytes([0, 1, 0]), 2),  # a byte too few, and one too many
    (3, 1, bytes([0, 1, 0, 2, 0]), 2),
    (3, 1, chain(2), 2),  # a pair too few, and one too many
    (3, 1, [(0, 1), (1, 2), (2, 0)], 2),
    (3, 1, bytes([0, 1, 1, 2]) + bytes(256), 2),  # a number of bytes whose low byte is right
    (3, 1, [(3, 0), (0, 1)], 3),  # the first relation, and the last
    (3, 1, [(0, 1), (1, 255)], 3),
    (3, 1, [(1, 1), (0, 3)], 3),  # a self-join before a relation that is not there
    (2, 1, [(0, 0)], 4),  # self-joins
    (2, 1, [(1, 1)], 4),
    (4, 1, [(0, 1), (1, 2), (2, 0)], 4),  # circles
    (4, 1, [(1, 2), (2, 3), (3, 1)], 4),
    (3, 1, [(0, 1), (1, 0)], 4),  # a join that is there twice
]


def shapes():
    """Chains and stars of one to nine relations."""
    for n in range(1, 10):
        for s in 1, n % 8 + 1, 8:
            # n - k + 1 subqueries have k relations, and k - 1 joins
            subqueries = sum(n - k + 1 for k in range(1, n + 1))
            trials = s * sum((n - k + 1) * (k - 1) for k in range(1, n + 1))
            yield room(n, s, chain(n)), [f"room {subqueries} {subqueries * s} {trials}"]
            # the middle with any leaves, and each leaf alone; a leaf is in half of the sets of leaves
            subqueries = 2 ** (n - 1) + n - 1
            trials = s * (n - 1) * 2 ** (n - 1) // 2
            yield room(n, s, star(n)), [f"room {subqueries} {subqueries * s} {trials}"]


def between():
    """Room after every other call: the query in force is not asked, and stays."""
    rooms = [
        (room(2, 3, chain(2)), ["room 3 9 3"]),
        (room(4, 2, star(4)), ["room 11 22 24"]),
        (room(10, 3, chain(10)), ["refused 2"]),
        (room(2, 3, [(0, 2)]), ["refused 3"]),
        (room(2, 3, [(1, 1)]), ["refused 4"]),
    ]
    detour = solve(9, 11), solved(23, 3, DETOUR, 11)
    for call in (
        (load(q()), ["load 2 3"]),
        (solve(9, 9), solved(21, 3, BEST, 9)),
        (check(BEST), ["check 21"]),
        (link(1, 0, 0, 1, 1), ["link"]),
        (check(BEST), ["refused 10 2"]),
        detour,
        (load(b""), ["refused 1"]),
        (load_from_rows(b""), ["refused 1"]),
        detour,
    ):
        yield call
        yield from rooms
    yield detour


def script():
    for n, s, joins, line in WORKED:
        yield room(n, s, joins), [line]
    for n, s, joins, number in REFUSED:
        yield room(n, s, joins), [f"refused {number}"]
    yield from shapes()
    yield from between()
