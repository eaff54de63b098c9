"""The records of a script, and the lines that a solve prints. All numbers are little-endian."""
import struct

KINDS = {"l": 1, "s": 2, "j": 3}

# A relation or a joined result is sent at most seven times where it goes by a route: 9 loads, 8 joins and 17 * 7 sends.
MOST_STEPS = 136
LONGEST_PLAN = 1 + 2 * MOST_STEPS


def load(file):
    return struct.pack("<BH", 1, len(file)) + file


def load_from_rows(file):
    return struct.pack("<BH", 7, len(file)) + file


def link(*arguments):
    return struct.pack("<B5Q", 2, *arguments)


def check(plan):
    return struct.pack("<BH", 5, len(plan)) + plan


def solve(cells, output):
    return struct.pack("<BII", 6, cells, output)


def room(n, s, joins):
    """joins: pairs, or bytes that need not be pairs."""
    ends = joins if isinstance(joins, bytes) else b"".join(bytes(join) for join in joins)
    return struct.pack("<BQQH", 8, n, s, len(ends)) + ends


def steps(text):
    """The bytes of a plan: `l0 s2 j1` is load 0, send to 2, join 1."""
    words = text.split()
    return bytes([len(words)]) + b"".join(bytes([KINDS[word[0]], int(word[1:])]) for word in words)


def solved(cost, trials, plan, output):
    """A plan is found: it stands at the front of the output, and the rest is as it was filled."""
    rest = bytes((i * 37 + 11) % 256 for i in range(len(plan), output))
    return [f"solved {cost} {len(plan)} {trials} {(plan + rest).hex()}", "cells OK"]


def no_route(trials):
    return [f"no-route {trials}", "cells OK", "output OK"]


def refused(number):
    """A solve that is refused."""
    return [f"refused {number}", "cells OK", "output OK"]
