"""An independent verifier of programs: a table of all lists that arrive, to its fixpoint.

It knows the format and the rules of programs, and nothing of the repository's code. All faults of a
program are collected, and the first of them is the answer.
"""
import sys
from dataclasses import dataclass, field

sys.setrecursionlimit(20000)

# Each instruction with its opcode and its operands: a byte, two bytes, or a value of sixteen.
CODES = {
    "Push": (0x01, "bv"), "Load": (0x02, "t"), "Past": (0x03, "tt"),
    "And": (0x10, ""), "Or": (0x11, ""), "Xor": (0x12, ""), "Add": (0x13, ""), "Sub": (0x14, ""),
    "AddSat": (0x15, ""), "SubSat": (0x16, ""), "Eq": (0x17, ""), "Lt": (0x18, ""),
    "Shl": (0x19, ""), "Shr": (0x1a, ""), "Not": (0x20, ""),
    "RedAnd": (0x21, ""), "RedOr": (0x22, ""), "RedXor": (0x23, ""),
    "Onehot": (0x24, ""), "Onehot0": (0x25, ""), "Concat": (0x26, ""),
    "Zext": (0x27, "b"), "Slice": (0x28, "bb"), "Mux": (0x29, ""),
    "Jump": (0x30, "t"), "JumpIfZero": (0x31, "t"), "SetAtom": (0x32, "b"), "Store": (0x33, "b"),
    "Halt": (0x34, ""),
    "Unless": (0x40, "bt"), "Enter": (0x41, "b"), "Accept": (0x42, ""), "Stop": (0x43, ""),
    "AcceptFirst": (0x44, ""),
}
SIZES = {"b": 1, "t": 2, "v": 16}
JOINS = ("And", "Or", "Xor", "Add", "Sub", "AddSat", "SubSat")
COMPARES = ("Eq", "Lt")
SHIFTS = ("Shl", "Shr")
REDUCES = ("RedAnd", "RedOr", "RedXor", "Onehot", "Onehot0")

# How many operands an instruction takes; the others take none.
TAKEN = {it: 2 for it in (*JOINS, *COMPARES, *SHIFTS, "Concat")}
TAKEN |= {it: 1 for it in (*REDUCES, "Not", "Zext", "Slice", "JumpIfZero", "SetAtom", "Store")}
TAKEN |= {"Mux": 3}

# What refuses a program, by number.
NAMES = {
    1: "Operand", 2: "Underflow", 3: "Overflow", 4: "JumpRange", 5: "BackwardJump",
    6: "JoinMismatch", 7: "Unreached", 8: "NoHalt", 9: "SlotRange", 10: "HistoryTooShort",
    11: "StackTooShort", 12: "Cycle", 13: "PoolTooSmall", 14: "BudgetTooSmall",
    15: "LimitTooLarge", 16: "AcceptKind",
}

# The most of each field, in the order in which they are judged.
MOST = {
    "history": 4096, "stack": 1024, "attempts": 1024, "obligations": 1024, "budget": 16777216,
    "atoms": 127, "slots": 256, "sample": 4096, "antecedent positions": 127,
    "antecedent code": 4096, "consequent positions": 127, "consequent code": 4096,
}


@dataclass
class Section:
    start: int = 0
    blocks: list = field(default_factory=list)

    def size(self):
        return sum(len(it) for it in self.blocks)


@dataclass
class Program:
    history: int = 0
    stack: int = 1
    attempts: int = 1
    obligations: int = 1
    budget: int = 8
    disable: int = 255
    atoms: int = 2
    name: bytes = b"r"
    clock: bytes = b"c"
    signals: list = field(default_factory=list)
    counters: list = field(default_factory=list)
    sample: list = field(default_factory=list)
    antecedent: Section = field(default_factory=Section)
    consequent: Section = field(default_factory=Section)

    def widths(self):
        """The widths of all slots."""
        return [1, *(width for width, _ in self.signals), *self.counters]


def number(value, size):
    return value.to_bytes(size, "big")


def spelled(instr):
    name, *operands = instr
    code, kinds = CODES[name]
    return number(code, 1) + b"".join(number(it, SIZES[k]) for it, k in zip(operands, kinds))


def listed(parts):
    return number(len(parts), 2) + b"".join(parts)


def text(it):
    return number(len(it), 2) + it


def section_bytes(section):
    blocks = [listed([spelled(it) for it in block]) for block in section.blocks]
    return number(section.start, 16) + number(len(blocks), 1) + b"".join(blocks)


def encode(it, version=2):
    """The file of a program; that of version 1 only where no AcceptFirst stands in it."""
    limits = [number(at, 2) for at in (it.history, it.stack, it.attempts, it.obligations)]
    head = b"SVAM" + bytes([version]) + b"".join(limits) + number(it.budget, 4)
    head += number(it.disable, 1) + number(it.atoms, 1) + text(it.name) + text(it.clock)
    signals = listed([number(width, 1) + text(path) for width, path in it.signals])
    lists = signals + listed([number(width, 1) for width in it.counters])
    sample = listed([spelled(at) for at in it.sample])
    return head + lists + sample + section_bytes(it.antecedent) + section_bytes(it.consequent)


class Bytes:
    """The fields of a file that is known to spell a program."""

    def __init__(self, data):
        self.data, self.at = data, 0

    def take(self, size):
        self.at += size
        return self.data[self.at - size:self.at]

    def number(self, size):
        return int.from_bytes(self.take(size), "big")

    def text(self):
        return self.take(self.number(2))

    def instr(self):
        code = self.number(1)
        name = next(it for it, (spelling, _) in CODES.items() if spelling == code)
        return (name, *(self.number(SIZES[it]) for it in CODES[name][1]))

    def code(self):
        return [self.instr() for _ in range(self.number(2))]

    def section(self):
        return Section(self.number(16), [self.code() for _ in range(self.number(1))])


def decode(data):
    """The program of a file that is known to spell one."""
    it = Bytes(data)
    it.take(5)
    limits = [it.number(2) for _ in range(4)] + [it.number(4)]
    header = [it.number(1), it.number(1), it.text(), it.text()]
    signals = [(it.number(1), it.text()) for _ in range(it.number(2))]
    counters = [it.number(1) for _ in range(it.number(2))]
    return Program(*limits, *header, signals, counters, it.code(), it.section(), it.section())


def result(program, instr, taken):
    """The widths that stand in place of those taken, or None where the rule isn't met."""
    name, *operands = instr
    widths = program.widths()
    if name in JOINS:
        return taken[:1] if taken[0] == taken[1] else None
    if name in COMPARES:
        return (1,) if taken[0] == taken[1] else None
    if name in SHIFTS:
        return taken[:1]
    if name in REDUCES:
        return (1,)
    if name == "Not":
        return taken
    if name == "Concat":
        return (sum(taken),) if sum(taken) <= 128 else None
    if name == "Zext":
        return (operands[0],) if taken[0] <= operands[0] else None
    if name == "Slice":
        return (operands[0] - operands[1] + 1,) if operands[0] < taken[0] else None
    if name == "Mux":
        return taken[1:2] if taken[0] == 1 and taken[1] == taken[2] else None
    if name in ("JumpIfZero", "SetAtom"):
        return () if taken[0] == 1 else None
    if name == "Store":
        counters = program.counters
        missing = operands[0] >= len(counters)
        return () if missing or taken[0] == counters[operands[0]] else None
    if name == "Push":
        return (operands[0],)
    if name in ("Load", "Past"):
        return (widths[operands[0]] if operands[0] < len(widths) else None,)
    return ()


def left_by(program, instr, stack):
    """What an instruction leaves of a list, or the number of its fault."""
    count = TAKEN.get(instr[0], 0)
    if len(stack) < count:
        return 2
    kept, taken = stack[:len(stack) - count], stack[len(stack) - count:]
    made = result(program, instr, taken)
    if made is None:
        return 1
    return kept + made if len(kept) + len(made) <= 1024 else 3


def successors(pc, instr):
    name, *operands = instr
    if name in ("Halt", "Stop"):
        return []
    if name == "Jump":
        return operands
    return [pc + 1, operands[-1]] if name in ("JumpIfZero", "Unless") else [pc + 1]


@dataclass
class Piece:
    """Sample code or the block of a position, with the number of its first instruction."""
    program: Program
    section: int
    code: list
    first: int = 0
    position: int = 0
    positions: int = 0

    def end(self):
        return self.first + len(self.code)

    def numbered(self):
        return list(enumerate(self.code, self.first))


def is_missing(piece, instr):
    """Whether an instruction names something that isn't there."""
    name, *operands = instr
    counts = {
        "Load": len(piece.program.widths()), "Past": len(piece.program.widths()),
        "Store": len(piece.program.counters), "SetAtom": piece.program.atoms,
        "Unless": piece.program.atoms, "Enter": piece.positions,
    }
    return name in counts and operands[0] >= counts[name]


def faults_at(piece, pc, instr, lists):
    """The numbers of all faults at an instruction at which these lists arrive."""
    name, *operands = instr
    found = []
    if len(lists) == 1:
        left = left_by(piece.program, instr, next(iter(lists)))
        found += [left] if isinstance(left, int) else []
    if name in ("Jump", "JumpIfZero", "Unless"):
        found += [4] if operands[-1] >= piece.end() else []
        found += [5] if operands[-1] <= pc else []
    found += [6] if len(lists) > 1 else []
    found += [7] if not lists else []
    last = "Halt" if piece.section == 1 else "Stop"
    found += [8] if pc == piece.end() - 1 and name != last else []
    found += [9] if is_missing(piece, instr) else []
    found += [12] if name == "Enter" and operands[0] <= piece.position else []
    found += [16] if name == "AcceptFirst" and piece.section != 2 else []
    return found


def sent_by(piece, pc, instr, lists):
    """What a faultless instruction sends, and where to."""
    if faults_at(piece, pc, instr, lists):
        return {}
    left = left_by(piece.program, instr, next(iter(lists)))
    return {target: left for target in successors(pc, instr)}


def arrivals(piece):
    """The lists that arrive at each instruction, when nothing changes any more."""
    sent = {}
    while True:
        before = dict(sent)
        incoming = {pc: {} for pc, _ in piece.numbered()}
        if piece.code:
            incoming[piece.first][None] = ()
        for pc, instr in piece.numbered():
            sent[pc] = sent_by(piece, pc, instr, set(incoming[pc].values()))
            for target, left in sent[pc].items():
                incoming[target][pc] = left
        if sent == before:
            return {pc: set(it.values()) for pc, it in incoming.items()}


def fault(section, pc, code, payload=None, part=0):
    """A fault with its place in the order, and its line."""
    words = [f"F{code}", NAMES[code]] + ([] if payload is None else [str(payload)])
    return (section, pc, code, part, " ".join(words))


def payload_of(piece, pc, code):
    return {8: None, 12: piece.position}.get(code, pc)


def piece_faults(piece):
    if not piece.code:
        return [fault(piece.section, piece.first, 8)]
    lists = arrivals(piece)
    return [
        fault(piece.section, pc, code, payload_of(piece, pc, code))
        for pc, instr in piece.numbered() for code in faults_at(piece, pc, instr, lists[pc])]


def pieces(program, number_of_section, section):
    """The blocks of a section."""
    made, first, positions = [], 0, len(section.blocks)
    for position, block in enumerate(section.blocks):
        made.append(Piece(program, number_of_section, block, first, position, positions))
        first += len(block)
    return made


def section_faults(program, number_of_section, section):
    found = [it for at in pieces(program, number_of_section, section) for it in piece_faults(at)]
    if section.start >> len(section.blocks):
        found.append(fault(number_of_section, 0, 9, 0))
    return found


def header_faults(program):
    sizes = {
        "slots": len(program.widths()), "sample": len(program.sample),
        "antecedent positions": len(program.antecedent.blocks),
        "antecedent code": program.antecedent.size(),
        "consequent positions": len(program.consequent.blocks),
        "consequent code": program.consequent.size(),
    }
    found = [
        fault(0, 0, 15, name, part) for part, (name, most) in enumerate(MOST.items())
        if (sizes[name] if name in sizes else getattr(program, name)) > most]
    is_disabled_by_none = program.disable == 255 or program.disable < program.atoms
    return found if is_disabled_by_none else [fault(0, 0, 9, 0), *found]


def longest_from(nexts, at, known):
    """The most steps from a place: one, and the most from a place after it."""
    if at not in known:
        most = 0
        for it in nexts(at):
            most = max(most, longest_from(nexts, it, known))
        known[at] = 1 + most
    return known[at]


def longest_path(piece):
    """The most instructions from the first one to an end."""
    code = dict(piece.numbered())
    return longest_from(lambda pc: successors(pc, code[pc]), piece.first, {})


def start_life(section):
    """The largest life of a start set."""
    entered = [[it[1] for it in block if it[0] == "Enter"] for block in section.blocks]
    started = [it for it in range(len(entered)) if section.start >> it & 1]
    return max([longest_from(lambda it: entered[it], it, {}) for it in started], default=1)


def least_of(program):
    """The least limits of a program without other faults, and the two lives."""
    sample = Piece(program, 1, program.sample)
    lives = start_life(program.antecedent), start_life(program.consequent)
    attempts, obligations = sum(lives) - 1, lives[1]
    sums = [
        sum(longest_path(it) for it in pieces(program, 0, section))
        for section in (program.antecedent, program.consequent)]
    return {
        "history": max([it[2] for it in program.sample if it[0] == "Past"], default=0),
        "stack": max(len(it) for lists in arrivals(sample).values() for it in lists),
        "attempts": attempts, "obligations": obligations,
        "budget": longest_path(sample) + attempts * (2 + sums[0]) + obligations * (1 + sums[1]),
    }, lives


def limit_faults(program):
    least, _ = least_of(program)
    lines = {"history": 10, "stack": 11, "attempts": 13, "obligations": 13, "budget": 14}
    found = []
    for part, (name, code) in enumerate(lines.items()):
        if getattr(program, name) < least[name]:
            payload = f"{name} {least[name]}" if code == 13 else least[name]
            found.append(fault(4, 0, code, payload, part))
    return found


def faults_of(program):
    """All faults of a program; those of its declared limits only where there is no other."""
    parts = header_faults(program) + piece_faults(Piece(program, 1, program.sample))
    parts += section_faults(program, 2, program.antecedent)
    parts += section_faults(program, 3, program.consequent)
    return parts or limit_faults(program)


def answer_to(program, found):
    if found:
        return min(found)[-1]
    least, lives = least_of(program)
    limits = " ".join(f"{name} {value}" for name, value in least.items())
    return f"accepted {limits} lives {lives[0]} {lives[1]}"


def verdict(program):
    return answer_to(program, faults_of(program))
