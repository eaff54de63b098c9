#!/usr/bin/env python3
"""Brings the repository's own definitions, lemmas, fields and constructors to the spelling of today's Rattle: words in snake case, modules in camel case.

It is run once, in the tree as it was before the port (docs/PORT.md says how).

usage: tools/respell.py            prints the table of names, and which of them fall together
       tools/respell.py --write    turns crates/ (sources, clauses, definitions, proofs, edits) and the code spans of the pages

Types keep their spelling, and so do the functions of src/, strings, inputs and outputs.
"""

import os
import re
import sys

TOP = os.path.join(os.path.dirname(os.path.realpath(__file__)), "..")
NAME = r"[^\s(){}.;,@\"«»`]+"
WORD = re.compile(NAME)
DECLARED = re.compile(rf"^ *(?:(?:abbrev|unfoldable|pub) +)*({NAME}) +:(?= |$)", re.M)
SEVERAL = re.compile(rf"^ *(?:(?:abbrev|unfoldable|pub) +)*({NAME}(?: {NAME})+) +:(?= |$)", re.M)
ALIAS = re.compile(rf"\bas ({NAME})")
GOAL = re.compile(r"^ *(?:(?:abbrev|unfoldable|pub) +)*(\S+) : (?:goal|tie)\.\S+", re.M)
QUOTED = re.compile(r"`[^`\n]*`")
OF_STD = {"bit_and", "bit_or"}
PAGES = ("README.md", "CONTRIBUTING.md", "docs", "reference/README.md")


def files(*kinds):
    for folder, dirs, names in os.walk(os.path.join(TOP, "crates")):
        dirs[:] = sorted(d for d in dirs if d != "out")
        for n in sorted(names):
            if n.endswith(kinds):
                yield os.path.join(folder, n)


def read(path):
    with open(path, encoding="utf-8") as f:
        return f.read()


def code(text):
    """The text without its comments."""
    return re.sub(r"(?m)(^|\s)--[ \n].*$", r"\1", text)


def respelled(name):
    if name[:1].isupper():
        # A module's other name, as Load-rows: camel case. A type has no dash.
        return re.sub(r"-(\w)", lambda m: m[1].upper(), name)
    name = name.replace("′", "'")
    name = re.sub(r"(?<=[a-z0-9])[A-Z]", lambda m: "_" + m[0].lower(), name)
    return name.replace("-", "_")


def declared():
    found = set()
    for p in files(".antt"):
        text = code(read(p))
        made = set(GOAL.findall(text))
        found |= {n for n in DECLARED.findall(text) if n not in made}
        for several in SEVERAL.findall(text):
            if not re.search(r"[→≡×]|\b(?:record|data|where|let|in)\b", several):
                found |= set(several.split())
        found |= set(ALIAS.findall(text))
    for p in files(".rt"):
        for line in read(p).splitlines():
            if line.startswith("ghost use"):
                found |= set(ALIAS.findall(line.rstrip(";")))
    return found


def lemmas():
    """What stands at the margin of proofs/ and is no definition."""
    found = set()
    for p in files(".antt"):
        if "/proofs/" in p:
            found |= set(re.findall(rf"^(?:pub +)?({NAME}) +:(?= |$)", code(read(p)), re.M))
    return found


def table():
    rows = {}
    proved = lemmas()
    for n in sorted(declared()):
        if re.search(r"[^\w'′-]", n) or n.startswith(("+", "-", "◌")) or re.match(r"^(?:loop|if|returns|invariant|decreases)\b-", n):
            continue
        new = respelled(n)
        if new != n:
            rows[n] = new
    # A lemma that would have a definition's name gets `_lem`.
    taken = {new for old, new in rows.items() if old not in proved} | OF_STD
    for n in rows:
        if n in proved and rows[n] in taken:
            rows[n] += "_lem"
    return rows


STRING = re.compile(r'"(?:[^"\\]|\\.)*"')


def turn_words(text, rows):
    """The text with its words turned; what a program prints stays."""
    parts, at = [], 0
    for m in STRING.finditer(text):
        parts += [WORD.sub(lambda w: rows.get(w[0], w[0]), text[at : m.start()]), m[0]]
        at = m.end()
    return "".join(parts) + WORD.sub(lambda w: rows.get(w[0], w[0]), text[at:])


def turn_line(line, rows, mark):
    """A line of code is turned whole, of a comment only what stands in backquotes."""
    at = re.search(rf"(?:^|(?<=\s)){mark}(?= |$)", line)
    head, tail = (line[: at.start()], line[at.start() :]) if at else (line, "")
    return turn_words(head, rows) + QUOTED.sub(lambda m: turn_words(m[0], rows), tail)


# What the texts of edits have beside the repository's own names.
OF_EDITS = [
    (r"getD(?![\w-])", "get_or"),
    (r"bitAnd(?![\w-])", "bit_and"),
    (r"bitOr(?![\w-])", "bit_or"),
    (r"_(\+|-|\*|/|%|\^|≤|<|≡|∷|\+\+|&&)_", r"◌\1◌"),
    (r"⌜ | ⌝", ""),
    (r"\((\w+) \.(\w+)\)", r"\1.\2"),
    (r"(?<=[\w)]) \.(?=\w)", "."),
]


def turn_edit(text, rows):
    out = []
    for line in text.split("\n"):
        if line.startswith(("old: ", "new: ")):
            line = turn_words(line, rows)
            for was, now in OF_EDITS:
                line = re.sub(was, now, line)
            line = re.sub(r"(?<![\w.])[a-z]+[A-Z]\w*", lambda m: respelled(m[0]), line)
        elif line.startswith("file: "):
            line = line.replace("specs/Contracts.antt", "specs/Code.antt")
        else:
            line = QUOTED.sub(lambda m: turn_words(m[0], rows), line)
        out.append(line)
    return "\n".join(out)


def rename_contracts():
    """Rattle makes a module specs.contracts: the planner's definitions for its contracts stand in Code, as those of other crates do."""
    specs = os.path.join(TOP, "crates", "planner", "specs")
    if os.path.exists(os.path.join(specs, "Contracts.antt")):
        os.rename(os.path.join(specs, "Contracts.antt"), os.path.join(specs, "Code.antt"))
    for p in files(".antt", ".rt"):
        text = read(p)
        new = text.replace("Rattle.planner.specs.Contracts", "Rattle.planner.specs.Code")
        if p.endswith("planner/specs/Lib.antt"):
            new = new.replace("pub mod Contracts", "pub mod Code")
        if new != text:
            write(p, new)


def tell_edits():
    """The edits whose old text does not stand just once in their file: these are turned by hand."""
    for p in files(".edit"):
        crate = os.path.dirname(os.path.dirname(p))
        held = {}
        path = None
        for line in read(p).split("\n"):
            if line.startswith("file: "):
                path = os.path.join(crate, line[6:].strip())
            elif line.startswith("old: "):
                text = held.setdefault(path, read(path) if path and os.path.exists(path) else "")
                n = text.count(line[5:])
                if n != 1:
                    print(f"by hand: {os.path.relpath(p, TOP)}: {n} times: {line[5:]}")


def write(path, text):
    with open(path, "w", encoding="utf-8") as f:
        f.write(text)


def main():
    if os.path.exists(os.path.join(TOP, "docs", "PORT.md")):
        sys.exit("respell: this tree is turned already (docs/PORT.md)")
    rows = table()
    if "--write" not in sys.argv:
        back = {}
        for old, new in rows.items():
            back.setdefault(new, []).append(old)
        names = declared()
        words = {}
        for p in files(".antt", ".rt"):
            words[p] = set(WORD.findall(read(p)))
        for new, olds in sorted(back.items()):
            where = [p for p in words if new in words[p] and any(o in words[p] for o in olds)]
            told = ""
            if len(olds) > 1:
                told += "  TWO"
            if new in names:
                told += "  DECLARED"
            if where:
                told += "  SEEN " + " ".join(os.path.relpath(p, os.path.join(TOP, "crates")) for p in where[:4])
            print(" ".join(olds), "->", new + told)
        return
    rename_contracts()
    for p in files(".antt", ".rt"):
        mark = "--" if p.endswith(".antt") else "//"
        text = read(p)
        new = "\n".join(turn_line(line, rows, mark) for line in text.split("\n"))
        if new != text:
            write(p, new)
    for p in files(".edit"):
        write(p, turn_edit(read(p), rows))
    for page in PAGES:
        path = os.path.join(TOP, page)
        pages = [path] if page.endswith(".md") else [os.path.join(path, n) for n in sorted(os.listdir(path)) if n.endswith(".md")]
        for p in pages:
            write(p, QUOTED.sub(lambda m: turn_words(m[0], rows), read(p)))
    tell_edits()


main()
