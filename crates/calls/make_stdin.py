#!/usr/bin/env python3
"""Writes the stored stdin of the program `calls`: every record, every refusal, and cases with the lines that must come stated beside them.

  make_stdin.py OUT           writes the stdin
  make_stdin.py OUT EXPECTED  also writes the lines
"""
import sys

sys.dont_write_bytecode = True
from script import areas, checks, indexes, loads, rooms, routes, rows, solves, states  # noqa: E402
from script.records import LONGEST_PLAN, solve  # noqa: E402


def script():
    for group in states, areas, loads, rows, solves, indexes, routes, checks, rooms:
        yield from group.script()
    # an unknown record ends the run
    yield b"\x03", []
    yield solve(4096, LONGEST_PLAN), []


if len(sys.argv) not in (2, 3):
    sys.exit(__doc__)
with open(sys.argv[1], "wb") as out:
    out.writelines(record for record, _ in script())
if len(sys.argv) == 3:
    with open(sys.argv[2], "w", encoding="ascii") as out:
        out.writelines(line + "\n" for _, lines in script() for line in lines)
