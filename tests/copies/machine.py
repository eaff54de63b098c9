"""Machine code as objdump lists it: its jumps and calls, what it moves from memory to memory, how it reaches the stack."""
import re
from collections import Counter, defaultdict, namedtuple
from itertools import chain

NAMES = [f"r{n}x e{n}x {n}x {n}l {n}h" for n in "abcd"] + [f"r{n} e{n} {n} {n}l" for n in ("si", "di", "bp", "sp")]
NAMES = [names.split() for names in NAMES + [f"r{n} r{n}d r{n}w r{n}b" for n in range(8, 16)]]
REGISTERS = {"%" + name: (names[0], size) for names in NAMES for name, size in zip(names, (8, 4, 2, 1, 1))}
REGISTERS |= {f"%{kind}mm{n}": (f"xmm{n}", size) for n in range(32) for kind, size in zip("xyz", (16, 32, 64))}
ARGUMENTS = ("rdi", "rsi", "rdx", "rcx", "r8", "r9")
LOST = ("rax", "r10", "r11", *ARGUMENTS, *(f"xmm{n}" for n in range(32)))  # in a call
LINE = re.compile(r"\s*([0-9a-f]+):\t(?:(?:data16|[c-s]s|lock|notrack) )*((?:rep\w* )?\S+) *([^<#]*)(?:<(.+)>)?")
MEMORY = re.compile(r"(?:%.s:)?(-?0x\w+)?\((?:%(\w+))?(?:,%(\w+),(\d))?\)")
MOVE = re.compile(r"v?mov([au]p[sd]|dq[au]\d*|z[bw][wlq]|[qd]|s[sd])?|v?lddqu")  # hands a value on as it is
PARTS = {"movzb": 1, "movzw": 2, "movd": 4, "movss": 4, "movq": 8, "movsd": 8}  # moves so much of a register
QUIET = re.compile(r"(cmp|test|bt)[bwlq]?$|j|nop|push|ret|v?u?comis|ud2")  # writes none of its operands
UNITS = {"b": 1, "w": 2, "l": 4, "q": 8}

Instruction = namedtuple("Instruction", "at op args size goes calls")
Place = namedtuple("Place", "root offset")  # what it is counted from, and how far
Load = namedtuple("Load", "place size")
Move = namedtuple("Move", "i source place end")


def number(arg):
    return (int(arg[1:], 16) + 2**63) % 2**64 - 2**63


def instruction(at, op, text, label):
    args = re.findall(r"(?:[^,(\s]|\([^)]*\))+", text)
    size = next((REGISTERS[arg][1] for arg in args if arg in REGISTERS), UNITS.get(op[-1], 0))
    inside = op[0] == "j" and "+" in (label or "")
    goes, calls = (int(args[0], 16), None) if inside else (None, label)
    return Instruction(int(at, 16), op, args, PARTS.get(op.lstrip("v")[:5], size), goes, calls)


def functions_of(listing):
    codes = {}
    for line in listing.splitlines():
        if found := re.match(r"[0-9a-f]+ <(.+)>:$", line):
            code = codes[found[1]] = []
        elif found := re.match(r"\s+[0-9a-f]+: R_\w+\s+(?:\.text\.)?(.+?)(?:[-+]0x\w+)?$", line):
            if re.match(r"j|call", code[-1].op):
                code[-1] = code[-1]._replace(goes=None, calls=found[1])
        elif found := LINE.match(line):
            code.append(instruction(*found.groups()))
    return {name: Function(code) for name, code in codes.items()}


def pushed(insn):
    """By how much an instruction moves the end of the stack."""
    if insn.args[-1:] == ["%rsp"] and insn.op in ("add", "sub"):
        return number(insn.args[0]) * (1 if insn.op == "add" else -1)
    return {"push": -8, "pop": 8}.get(insn.op, 0)


def written(insn):
    """The registers that an instruction writes."""
    if insn.calls:
        return LOST
    if insn.op.startswith("rep"):
        return ("rcx", "rsi", "rdi")
    return [REGISTERS[arg][0] for arg in insn.args[-1:] if arg in REGISTERS and not QUIET.match(insn.op)]


class Function:
    def __init__(self, code):
        self.code = code
        self.calls = {i: insn.calls for i, insn in enumerate(code) if insn.calls}
        self.blind = any(re.match(r"j|call", insn.op) and insn.goes is None and not insn.calls for insn in code)
        where = {insn.at: i for i, insn in enumerate(code)}
        self.after = [[where[insn.goes]] if insn.goes in where else [] for insn in code]
        self.heads = {*chain(*self.after)}  # where jumps come in
        self.straight = 0  # the number of the run of instructions that no jump comes into
        self.depth = {}  # of the stack, before each instruction
        self.held, self.changes = {}, Counter()  # what registers are known to hold, and how often they were written
        self.moves = defaultdict(lambda: [[]])
        self.small, self.pointed, self.handed = set(), set(), set()  # places on the stack, by how they are reached
        for i, insn in enumerate(code):
            self.after[i] += [] if re.match(r"jmp|ret|ud2", insn.op) or i + 1 == len(code) else [i + 1]
            depth = self.depth.setdefault(i, self.depth.get(i - 1, 0)) + pushed(insn)
            for j in self.after[i]:
                self.depth.setdefault(j, depth)
            self.follow(i, insn)

    def again(self, i):
        """Instruction i is in a loop: a way leads from it back to it."""
        seen, todo = set(), [i]
        while todo:
            todo += (more := {*self.after[todo.pop()]} - seen)
            seen |= more
        return i in seen

    def place(self, i, arg):
        offset, base, index, scale = MEMORY.fullmatch(arg).groups()
        known = Place("stack", self.depth[i]) if base == "rsp" else self.held.get(base)
        root, start = known if isinstance(known, Place) else ((base, self.changes[base]), 0)
        return Place((root, index, self.changes[index], scale) if index else root, start + int(offset or "0", 16))

    def value(self, insn, places):
        """What an instruction hands on to its last operand, as far as that is known: an address, a load or a number."""
        source, target = insn.args[0], insn.args[-1]
        known = self.held.get(REGISTERS.get(target, [None])[0])
        if insn.op == "lea":
            return places[source]
        if insn.op in ("add", "sub") and source[0] == "$" and isinstance(known, Place):
            return Place(known.root, known.offset + number(source) * (1 if insn.op == "add" else -1))
        if not MOVE.fullmatch(insn.op) or "(%rip)" in source:  # what stands beside the code is a constant
            return None
        if source in places:
            return Load(places[source], insn.size)
        if source[0] == "$":
            return number(source)
        part = insn.op.lstrip("v")[:5] in PARTS and target in REGISTERS
        return None if part else self.held.get(REGISTERS[source][0])

    def follow(self, i, insn):
        """Notes what an instruction moves, how it reaches the stack, and what registers hold behind it."""
        if i in self.heads:
            self.enter(i)
        places = {arg: self.place(i, arg) for arg in insn.args if MEMORY.fullmatch(arg) and insn.op[:3] != "nop"}
        value = self.value(insn, places) if insn.args and not insn.calls else None
        for place in (*places.values(), value):
            if isinstance(place, Place) and "stack" in (place.root, place.root[0]):
                self.small |= {place.offset} if insn.size < 8 else set()
                self.pointed |= {place.offset} if place is value or place.root != "stack" else set()
        target = places.get(insn.args[-1]) if insn.args else None
        if target and isinstance(value, Load) and value.size == insn.size:
            self.move(i, value.place, target, insn.size)
        if insn.calls or insn.op.startswith("rep movs"):
            self.hand(i, insn)
        for name in written(insn):
            self.changes[name] += 1
            self.held[name] = value

    def enter(self, i):
        """Where jumps come in, nothing is known; but in a loop, registers that it does not write are still as above it."""
        jumps = [j for j, insn in enumerate(self.code) if insn.goes == self.code[i].at]
        lost = {name for insn in self.code[i:jumps[-1] + 1] for name in written(insn)}
        self.held = {} if jumps[0] < i else {name: value for name, value in self.held.items() if name not in lost}
        self.straight += 1

    def hand(self, i, insn):
        """Notes the addresses on the stack that a call is given. memcpy has a place, a source and a number of bytes."""
        given = [self.held.get(name) for name in ARGUMENTS]
        self.handed |= {value.offset for value in given if isinstance(value, Place) and value.root == "stack"}
        if insn.calls in ("memcpy", "memmove", None):
            place, source = (value if isinstance(value, Place) else Place(("given", i), 0) for value in given[:2])
            count, unit = (given[2], 1) if insn.calls else (given[3], UNITS[insn.op[-1]])
            self.move(i, source, place, count * unit if isinstance(count, int) else 0)

    def move(self, i, source, place, size):
        """Puts a move to those of its straight run that go as far: side by side they are one copy."""
        batches = self.moves[self.straight, source.root, place.root, source.offset - place.offset]
        if any(place.offset < other.end and other.place.offset < place.offset + size for other in batches[-1]):
            batches.append([])  # the same bytes once more are another copy
        batches[-1].append(Move(i, source, place, place.offset + size))

    def runs(self):
        """The moves, those side by side together."""
        for batch in chain(*self.moves.values()):
            run = []
            for move in sorted(batch, key=lambda move: move.place.offset):
                if run and run[-1].end != move.place.offset:
                    yield run
                    run = []
                run.append(move)
            yield run
