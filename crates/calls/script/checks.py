"""Plans that check allows, and plans that it refuses, by number and place."""
from script.queries import SITES, alone, chain, closed, every, file, q
from script.records import MOST_STEPS, check, load, steps

BEST = steps("l0 l1 s0 j0")
AWAY = steps("l0 s1 l1 j0 s0")
ONE_SITE = [(1, 0, 1)]

# As many steps as there may be: each relation of a chain of nine is sent seven times, and so is each joined result.
TO_0, TO_1 = "s0 s1 s0 s1 s0 s1 s0", "s1 s0 s1 s0 s1 s0 s1"
LONGEST = f"l0 {TO_1} " + " ".join(f"l{r} {here} j{r - 1} {away}" for r in range(1, 9) for here, away in [(TO_1, TO_0) if r % 2 else (TO_0, TO_1)])

ON_Q = [
    (BEST, "check 21"),
    (AWAY, "check 24"),
    (steps("l1 s2 l0 s2 j0 s0"), "check 26"),
    # a send after a send: of a relation, of one that comes home, and of the joined result
    (steps("l0 l1 s2 s0 j0"), "check 23"),
    (steps("l0 s1 s0 l1 s0 j0"), "check 27"),
    (steps("l0 s1 l1 j0 s2 s0"), "check 26"),
    # 7: no plan, a count outside 1 to 136, a length that is not the count's
    (b"", "refused 7"),
    (b"\x00", "refused 7"),
    (BEST[:-1], "refused 7"),
    (BEST + b"\x00", "refused 7"),
    (b"\x03" + BEST[1:], "refused 7"),
    (b"\xff", "refused 7"),
    (steps((MOST_STEPS + 1) * "l0 "), "refused 7"),
    (bytes(5000), "refused 7"),
    # 8: unknown kinds, arguments not in the query, with nothing held too
    (bytes([1, 0, 0]), "refused 8 0"),
    (bytes([1, 4, 0]), "refused 8 0"),
    (bytes([1, 255, 255]), "refused 8 0"),
    (steps("l2"), "refused 8 0"),
    (steps("s3"), "refused 8 0"),
    (steps("j1"), "refused 8 0"),
    (steps("s255"), "refused 8 0"),
    (steps("l0 s3"), "refused 8 1"),
    (steps("l0 l2"), "refused 8 1"),
    # 9: loaded before
    (steps("l0 l0"), "refused 9 1"),
    (steps("l0 l1 s0 j0 l1"), "refused 9 4"),
    # 10: nothing held, the site where it stands, after a send too
    (steps("s0"), "refused 10 0"),
    (steps("l0 s0"), "refused 10 1"),
    (steps("l0 s1 s1"), "refused 10 2"),
    (steps("l0 s1 s0 s0"), "refused 10 3"),
    # 11: fewer than two held, two sites
    (steps("j0"), "refused 11 0"),
    (steps("l0 j0"), "refused 11 1"),
    (steps("l0 l1 j0"), "refused 11 2"),
    # 12: not every relation, not at the query site, more than one held
    (steps("l0"), "refused 12 1"),
    (steps("l0 s1 l1 j0"), "refused 12 4"),
    (steps("l0 s1 s2"), "refused 12 3"),
    (steps("l0 l1"), "refused 12 2"),
]


def on(query, loaded, *cases):
    yield load(query), [loaded]
    for plan, line in cases:
        yield check(plan), [line]


def to_and_fro():
    """One relation sent between 0 and 1 for 3 a send, as often as there may be steps: the asked site is 1."""
    yield load(alone(1)), ["load 1 1"]
    for sends in range(1, MOST_STEPS):
        plan = "l0" + "".join(f" s{i % 2}" for i in range(1, sends + 1))
        yield check(steps(plan)), [f"check {3 * sends}" if sends % 2 else f"refused 12 {sends + 1}"]
    yield check(steps(plan + " s0")), ["refused 7"]


def longest():
    """As many steps as there may be, one more, and one that is wrong at the last; and the dearest plan."""
    yield from on(
        file(
            [(1, 1_000_000, 1_000), (1, 5, 3)],
            [(0, 1)] + [(r % 2 ^ 1, r % 3 == 0) for r in range(1, 9)],
            chain(9),
            lambda subquery: 1_900_000 * subquery,
            lambda a, b: (1, 7 + a, 900 + b),
            1,
        ),
        "load 9 45",
        (steps(LONGEST), "check 4852709450912"),
        (steps(LONGEST + " l0"), "refused 7"),
        (steps(LONGEST[:-2] + "s2"), f"refused 8 {MOST_STEPS - 1}"),
    )
    yield from on(
        file(
            [(1, 1_000_000, 1_000)] * 2,
            [(r % 2 ^ (r > 0), 0) for r in range(9)],
            chain(9),
            lambda subquery: 1_000_000_000,
            every(1, 1_000_000, 1_000),
            1,
        ),
        "load 9 45",
        (steps(LONGEST), "check 38875127000000"),
    )


def script():
    yield from on(q(), "load 2 3", *ON_Q)
    # a closed line, and one that is closed the other way alone
    yield from on(q(line=closed((1, 0))), "load 2 3", (BEST, "refused 10 2"))
    yield from on(q(line=closed((0, 1))), "load 2 3", (BEST, "check 21"))
    # a site that may not join
    yield from on(q(sites=[(0, 2, 1)] + SITES[1:]), "load 2 3", (BEST, "refused 11 3"), (AWAY, "check 24"))
    # the index spares the read, but not after a send
    yield from on(q(relations=[(0, 1), (1, 0)]), "load 2 3", (BEST, "check 11"), (AWAY, "check 24"))
    # a join with no end in one operand, and joins whose first relation lies in either operand
    yield from on(
        file(ONE_SITE, [(0, 0)] * 3, [(0, 1), (2, 1)], lambda subquery: 2 * subquery, None, 0),
        "load 3 6",
        (steps("l0 l1 j1 l2 j1"), "refused 11 2"),
        (steps("l0 l1 j0 l2 j1"), "check 40"),
        (steps("l2 l0 l1 j0 j1"), "check 40"),
    )
    # one relation needs no join, and every join step is then unknown
    yield from on(file([(0, 0, 0)], [(0, 0)], [], lambda subquery: 10, None, 0), "load 1 1", (steps("l0"), "check 0"), (steps("j0"), "refused 8 0"))
    yield from to_and_fro()
    yield from longest()
