"""Query files, from a query's parts."""
import itertools


def amount(value):
    return value.to_bytes(4, "little")


def terms(flag, fixed, rate):
    return bytes([flag]) + amount(fixed) + amount(rate)


def subqueries(n, joins):
    """The numbers of the connected sets of n relations, ascending."""

    def connected(number):
        within = {r for r in range(n) if number >> r & 1}
        taken = {min(within)}
        while more := {y for a, b in joins for x, y in ((a, b), (b, a)) if x in taken and y in within} - taken:
            taken |= more
        return taken == within

    return [number for number in range(1, 2**n) if connected(number)]


def sections(sites, relations, joins, size, line, target):
    """sites: (may join, fixed, rate); relations: (home, index); joins: pairs; size of a subquery; (open, fixed, rate) of the line from a to b."""
    numbers = subqueries(len(relations), joins)
    pairs = list(itertools.permutations(range(len(sites)), 2))
    return [
        bytes([len(sites)]) + b"".join(terms(*site) for site in sites),
        bytes([len(relations)]) + b"".join(bytes(relation) for relation in relations),
        bytes([len(joins)]) + b"".join(bytes(join) for join in joins),
        len(numbers).to_bytes(2, "little") + b"".join(amount(size(number)) for number in numbers),
        bytes([len(pairs)]) + b"".join(terms(*line(a, b)) for a, b in pairs),
        bytes([1, target]),
    ]


def counted(values):
    return bytes([len(values)]) + b"".join(amount(value) for value in values)


def sections_from_rows(sites, relations, joins, rows, divisors, line, target):
    """The same for load from rows: Rows and Divisors stand where Sizes stood."""
    parts = sections(sites, relations, joins, lambda subquery: 0, line, target)
    return parts[:3] + [counted(rows), counted(divisors)] + parts[4:]


def file(*parts):
    return b"".join(sections(*parts))


def chain(n):
    return [(r, r + 1) for r in range(n - 1)]


def star(n):
    return [(0, r) for r in range(1, n)]


def every(*of_all):
    """Lines that are all alike."""
    return lambda a, b: of_all


def closed(*lines):
    """The lines of Q, but for these."""
    return lambda a, b: (int((a, b) not in lines), 1, 1)


SITES = [(1, 2, 1)] * 3
RELATIONS = [(0, 0), (1, 0)]
SIZES = {1: 10, 2: 4, 3: 3}.get


def q(sites=SITES, relations=RELATIONS, line=every(1, 1, 1), target=0):
    """Q of the rules, with one part changed."""
    return file(sites, relations, chain(2), SIZES, line, target)


def alone(target):
    """Relation 0 of Q alone, delivered to a site."""
    return file(SITES, RELATIONS[:1], [], SIZES, every(1, 1, 1), target)


Q = sections(SITES, RELATIONS, chain(2), SIZES, every(1, 1, 1), 0)


# The same from rows: 10 * 4 / 16 is 2.5, so 3.
Q_FROM_ROWS = sections_from_rows(SITES, RELATIONS, chain(2), [10, 4], [16], every(1, 1, 1), 0)


def changed(parts, section, at, value):
    """The file with the bytes at a place of a section replaced."""
    part = parts[section]
    return b"".join(parts[:section]) + part[:at] + value + part[at + len(value) :] + b"".join(parts[section + 1 :])


def q_with(section, at, value):
    """Q with the bytes at a place of a section replaced."""
    return changed(Q, section, at, value)


# The longest file: nine relations in a star, eight sites, and no two amounts of a kind alike.
LONGEST = file(
    [(1, 100_000 + k, 900 + k) for k in range(8)],
    [(r % 8, r % 3 == 0) for r in range(9)],
    [(0, r) if r % 2 else (r, 0) for r in range(1, 9)],
    lambda subquery: 1_000_000 * subquery + 7,
    lambda a, b: (1, 1_000 * a + b, 10 * a + b),
    7,
)

assert len(q()) == 107 and len(LONGEST) == 1674
