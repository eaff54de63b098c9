#!/usr/bin/env python3
"""Finds copies of a list of joins in the machine code of solve and of a load's table of sets and count of subqueries.

  copies.py FILE [ROOT..]   FILE: an archive, an object, or a stored listing of objdump, whole or in part (.txt)
                            ROOT: the functions to begin with, by their last names; else those of the product

A list of joins has 24 bytes, and its two arrays without the count 16. A copy is a load whose value is stored elsewhere as
it is, or a memcpy; copies side by side, from places side by side, are one. One of 16 to 63 bytes is taken for a list,
alone or with something beside it; all but two words on the stack: 16 bytes of which nothing smaller than a word is
reached, and to which no address leads but that of the first word, and that handed to a call. Such are a slice, and a
register that is put away. Arrays are read by bytes, or handed on by the address of their count, 8 bytes before them.
64 bytes are a row of lanes, and less from a place on the stack to which the function copies a row is a part of one. More is
the query or another large record: it may be copied once a call, but not where code runs again and again, in a loop or in a
function that is called from a loop or by itself; but for a table of routes, which the writer has for a route of its own.

It does not see what a loop copies byte by byte; a load and its store where a jump, but a loop's own, comes in between;
the two arrays without the count, where all that is done with them is that a call is handed their own address; and a list
where a row stands at another time.
"""
import subprocess
import sys
from collections import Counter

sys.dont_write_bytecode = True
from machine import functions_of  # noqa: E402

WORD, ARRAYS, ROW, ROUTES = 8, 16, 64, 512
QUERY = 2760  # of it, by memcpy: its first word goes by itself
LIST = "a list of joins"
SOLVE = ("solved", "join_table")  # judged with all that they call
LOAD = ("fanchuki_plan",)  # hands its parts on once: of it and the rest that it calls, what runs again and again


def listing(path):
    if path.endswith(".txt"):
        with open(path, encoding="ascii") as file:
            return file.read()
    words = ["objdump", "-dr", "--no-show-raw-insn", path]
    return subprocess.run(words, check=True, stdout=subprocess.PIPE, text=True).stdout


def below(functions, names):
    """The functions of these names and all that they call."""
    found, todo = set(), [*names]
    while todo:
        if (name := todo.pop()) in functions and name not in found:
            found.add(name)
            todo += functions[name].calls.values()
    return found


def rooted(functions, lasts):
    """The functions of these last names, as solved is that of fanchuki::solved, and all that they call."""
    for last in lasts:
        if not any(name.split("::")[-1] == last for name in functions):
            sys.exit(f"copies: there is no function {last}")
    return below(functions, [name for name in functions if name.split("::")[-1] in lasts])


def repeated(functions, names):
    """The functions that are called from a loop or by themselves, and all that they call."""
    calls = [(name, i, callee) for name in names for i, callee in functions[name].calls.items()]
    return below(functions, [callee for name, i, callee in calls
                             if functions[name].again(i) or name in below(functions, [callee])])


def two_words(function, place):
    """16 bytes on the stack are not used as the arrays of a list."""
    near = {at for at in function.small | function.pointed if place.offset - WORD <= at < place.offset + ARRAYS}
    return place.root == "stack" and near <= ({place.offset} & function.handed) - function.small


def length(run):
    return run[-1].end - run[0].place.offset


def rows(function):
    """Where on the stack the function copies rows to."""
    return [run[0].place.offset for run in function.runs() if length(run) == ROW and run[0].place.root == "stack"]


def kind(function, run):
    """What is copied, by its bytes."""
    size, source, place = length(run), run[0].source, run[0].place
    if not 0 < size < ROW:
        known = {0: "bytes by count", ROW: "a row of lanes", ROUTES: "a table of routes", QUERY: "the query"}
        return known.get(size, "a large record")
    if size == ARRAYS and two_words(function, place):
        return "two words"
    part = source.root == "stack" and any(row <= source.offset and source.offset + size <= row + ROW for row in rows(function))
    return "a part of a row" if part else LIST


def copies(function):
    """The copies in a function: the offset, whether in a loop, the bytes (0 where no number is fixed), the kind."""
    for run in function.runs():
        size, first = length(run), min(move.i for move in run)
        if size == 0 or size >= ARRAYS:
            yield function.code[first].at, function.again(first), size, kind(function, run)


def verdict(size, what, again):
    """As what a copy is counted, and whether it may stand."""
    if size == 0 or size > ROW:
        return f"{what}, {'again and again' if again else 'once a call'}", not again or size == ROUTES
    return what, what != LIST


def main(path, *roots):
    functions = functions_of(listing(path))
    whole = rooted(functions, roots or SOLVE)
    names = whole | (set() if roots else rooted(functions, LOAD))
    often = repeated(functions, names)
    good, bad = Counter(), Counter()
    for name in sorted(names):
        if functions[name].blind:
            sys.exit(f"copies: in {name} a jump or a call goes nowhere that is known")
        for at, loop, size, what in sorted(copies(functions[name])):
            if loop or name in often | whole:
                when = "in a loop" if loop else "in a function called again and again" if name in often else "once a call"
                print(f"{name}+{at:#x}: {size or 'some'} bytes, {when}: {what}")
                counted, may = verdict(size, what, loop or name in often)
                (good if may else bad)[counted] += 1
    text = "; ".join(f"{count} of {what}" for what, count in sorted((bad or good).items()))
    print(f"copies: {text}" if bad else f"copies: no list of joins is copied in {len(names)} functions ({text})")
    sys.exit(1 if bad else 0)


if len(sys.argv) < 2:
    sys.exit(__doc__)
main(*sys.argv[1:])
