#!/usr/bin/env python3
"""Makes files of bytecode with the answers of an independent reader.

`scripts/models/bytecode_cases.py FOLDER` writes FOLDER/data/bytecode_cases.txt, a file in hexadecimal digits on
each line, and the part `bytecode` of FOLDER/stdout, for each line `program` or the fault. Of a line that begins
with `=` the answer is all that the program holds.

The reader here takes a file apart by a table of fields, and knows nothing of the repository's code.
"""
import os
import random
import re
import sys

from stored_parts import write_part

# The file of the smallest monitor in version 1: `r: .. top.x |-> top.y` at `top.clk`.
SMALL = bytes.fromhex(
    "5356414d01 0000 0001 0001 0001 0000000e ff 02 0001 72 0007 746f702e636c6b 0002 01 0005 746f702e78 01 0005 "
    "746f702e79 0000"
    "0005 020001 3200 020002 3201 34 00000000000000000000000000000001 01 0003 40000002 42 43"
    "00000000000000000000000000000001 01 0003 40010002 42 43")

# The same without positions.
EMPTY = SMALL[:SMALL.index(b"\x34") + 1] + bytes(17) * 2

# The operands after each opcode of sample code, and of blocks: a width, a value of that width, a number of two bytes,
# one of them but 0, a byte, the highest bit of a slice and its lowest.
SAMPLE = {0x01: "wv", 0x02: "t", 0x03: "tp", 0x27: "w", 0x28: "hl", 0x30: "t", 0x31: "t", 0x32: "b", 0x33: "b"}
SAMPLE |= {code: "" for code in [*range(0x10, 0x1B), *range(0x20, 0x27), 0x29, 0x34]}
BLOCK = {0x40: "bt", 0x41: "b", 0x42: "", 0x43: ""}
# Those of blocks in each version.
BLOCKS = {1: BLOCK, 2: BLOCK | {0x44: ""}}

# What each instruction is called.
NAMES = {
    0x01: "Push", 0x02: "Load", 0x03: "Past",
    0x10: "Join(And)", 0x11: "Join(Or)", 0x12: "Join(Xor)", 0x13: "Join(Add)", 0x14: "Join(Sub)",
    0x15: "Join(AddSat)", 0x16: "Join(SubSat)", 0x17: "Compare(Eq)", 0x18: "Compare(Lt)",
    0x19: "Shift(Shl)", 0x1a: "Shift(Shr)", 0x20: "Not",
    0x21: "Reduce(RedAnd)", 0x22: "Reduce(RedOr)", 0x23: "Reduce(RedXor)",
    0x24: "Reduce(Onehot)", 0x25: "Reduce(Onehot0)",
    0x26: "Concat", 0x27: "Zext", 0x28: "Slice", 0x29: "Mux",
    0x30: "Jump", 0x31: "JumpIfZero", 0x32: "SetAtom", 0x33: "Store", 0x34: "Halt",
    0x40: "Unless", 0x41: "Enter", 0x42: "Accept", 0x43: "Stop", 0x44: "AcceptFirst",
}


class Fault(Exception):
    pass


class Reader:
    def __init__(self, data):
        self.data, self.at, self.version = data, 0, 2

    def number(self, size):
        if len(self.data) - self.at < size:
            raise Fault(f"B3 Truncated {len(self.data)}")
        self.at += size
        return int.from_bytes(self.data[self.at - size:self.at], "big")

    def checked(self, size, test):
        begun = self.at
        value = self.number(size)
        if not test(value):
            raise Fault(f"B5 BadField {begun}")
        return value

    def width(self):
        return self.checked(1, lambda it: 1 <= it <= 128)

    def text(self, dots):
        begun = self.at
        size = self.number(2)
        if len(self.data) - self.at < size:
            raise Fault(f"B3 Truncated {len(self.data)}")
        text = self.data[self.at:self.at + size]
        self.at += size
        words = text.split(b".") if dots else [text]
        first = b"ABCDEFGHIJKLMNOPQRSTUVWXYZabcdefghijklmnopqrstuvwxyz_"
        later = first + b"0123456789$"
        if any(not it or it[0] not in first or any(at not in later for at in it) for it in words):
            raise Fault(f"B5 BadField {begun}")
        return '"' + text.decode("ascii") + '"'

    def operand(self, kind, before):
        if kind == "w":
            return self.width()
        if kind == "v":
            return self.checked(16, lambda it: it < 1 << before)
        if kind == "t":
            return self.number(2)
        if kind == "p":
            return self.checked(2, lambda it: it > 0)
        if kind == "b":
            return self.number(1)
        if kind == "h":
            return self.checked(1, lambda it: it <= 127)
        return self.checked(1, lambda it: it <= before)

    def instruction(self, table):
        begun = self.at
        code = self.number(1)
        if code not in table:
            raise Fault(f"B4 BadOpcode {begun}")
        operands = []
        for kind in table[code]:
            operands.append(self.operand(kind, operands[-1] if operands else None))
        return NAMES[code] + (f"({listing(operands)})" if operands else "")

    def code(self, table):
        return f"[{listing([self.instruction(table) for _ in range(self.number(2))])}]"

    def section(self):
        start = self.number(16)
        blocks = listing([self.code(BLOCKS[self.version]) for _ in range(self.number(1))])
        return f"Section {{ start: {start}, blocks: [{blocks}] }}"

    def limits(self):
        sizes = {"history": 2, "stack": 2, "attempts": 2, "obligations": 2, "budget": 4}
        fields = listing([f"{name}: {self.number(size)}" for name, size in sizes.items()])
        return f"Limits {{ {fields} }}"

    def atom(self):
        atom = self.number(1)
        return "None" if atom == 255 else f"Some({atom})"

    def slots(self):
        made = lambda: f"Slot {{ width: {self.width()}, path: {self.text(True)} }}"
        return f"[{listing([made() for _ in range(self.number(2))])}]"

    def widths(self):
        return f"[{listing([self.width() for _ in range(self.number(2))])}]"

    def program(self):
        """All that the program holds."""
        if self.number(4) != 0x5356414D:
            raise Fault("B1 Magic")
        self.version = self.number(1)
        if self.version not in BLOCKS:
            raise Fault("B2 Version")
        fields = {
            "limits": self.limits, "disable": self.atom, "atoms": lambda: self.number(1),
            "name": lambda: self.text(False), "clock": lambda: self.text(True),
            "signals": self.slots, "counters": self.widths, "sample": lambda: self.code(SAMPLE),
            "antecedent": self.section, "consequent": self.section,
        }
        held = listing([f"{name}: {read()}" for name, read in fields.items()])
        if self.at < len(self.data):
            raise Fault(f"B6 TrailingBytes {self.at}")
        return f"Program {{ {held} }}"


def listing(parts):
    return ", ".join(str(it) for it in parts)


def listed(data):
    """All that the program holds, or the fault."""
    try:
        return Reader(data).program()
    except Fault as it:
        return str(it)


def answer(data):
    held = listed(data)
    return "program" if held.startswith("Program") else held


def text(it):
    return len(it).to_bytes(2, "big") + it


def in_version_2(data):
    """A file in version 2 of what one in version 1 spells."""
    return data[:4] + b"\x02" + data[5:]


def accepting_first(data, which):
    """The file of the smallest monitor with AcceptFirst for an Accept, the antecedent's or the consequent's."""
    at = [it for it in range(80, len(data)) if data[it] == 0x42][which]
    return data[:at] + b"\x44" + data[at + 1:]


# The smallest monitor in version 2, its antecedent accepting first.
FIRST = accepting_first(in_version_2(SMALL), 0)


def every_instruction(version=1):
    """A program with each instruction, each at the borders of its operands."""
    code = [bytes([0x01, 1]) + bytes(16), bytes([0x01, 128]) + b"\xff" * 16,
            bytes([0x01, 9]) + (511).to_bytes(16, "big"), b"\x02\x00\x00", b"\x02\xff\xff", b"\x03\x00\x00\x00\x01",
            b"\x03\xff\xff\xff\xff"]
    code += [bytes([it]) for it in SAMPLE if not SAMPLE[it]]
    code += [b"\x27\x01", b"\x27\x80", b"\x28\x00\x00", b"\x28\x7f\x00", b"\x28\x7f\x7f", b"\x30\x00\x00",
             b"\x30\xff\xff", b"\x31\x12\x34", b"\x32\x00", b"\x32\xff", b"\x33\x00", b"\x33\xff"]
    blocks = [[b"\x40\x00\x00\x00", b"\x40\xff\xff\xff", b"\x42", b"\x43"], [], [b"\x41\x00", b"\x41\xff", b"\x43"]]
    blocks[0] += [b"\x44"] if version == 2 else []
    sizes = b"".join(len(it).to_bytes(2, "big") + b"".join(it) for it in blocks)
    section = b"\x80" + bytes(14) + b"\x07" + bytes([len(blocks)]) + sizes
    limits = bytes.fromhex("1000 0400 0400 0400 01000000 00 fe")
    head = b"SVAM" + bytes([version]) + limits + text(b"_a$9") + text(b"a.b$._c.d0")
    signals = [(1, b"x"), (128, b"top.u_1.q$"), (64, b"_._._")]
    spelled = b"".join(bytes([w]) + text(p) for w, p in signals)
    lists = len(signals).to_bytes(2, "big") + spelled + b"\x00\x03\x01\x80\x20"
    return head + lists + len(code).to_bytes(2, "big") + b"".join(code) + section + b"\xff" * 16 + b"\x00"


def mutants(data, rng, count):
    for _ in range(count):
        it = bytearray(data)
        for _ in range(rng.choice((1, 1, 1, 2, 3))):
            place, way = rng.randrange(len(it)), rng.randrange(4)
            if way == 0:
                it[place] = rng.randrange(256)
            elif way == 1:
                it[place] ^= 1 << rng.randrange(8)
            elif way == 2:
                del it[place]
            else:
                it.insert(place, rng.randrange(256))
            if not it:
                it = bytearray(b"\0")
        yield bytes(it)


def lone_instructions(small):
    """For each byte, with operands that it may have, one in sample code, and one in a block."""
    front, behind = small[:small.index(b"\x00\x05\x02\x00\x01")], bytes(17)
    operands = {"w": b"\x80", "v": bytes(range(0xe0, 0xf0)), "t": b"\x12\x34", "p": b"\x56\x78"}
    operands |= {"b": b"\x9a", "h": b"\x7e", "l": b"\x7d"}
    for code in range(256):
        lone = bytes([code]) + b"".join(operands[it] for it in (SAMPLE | BLOCK).get(code, ""))
        yield front + b"\x00\x01" + lone + behind * 2
        yield front + bytes(2) + bytes(16) + b"\x01\x00\x01" + lone + behind


def declared_counts():
    """Of each list two files of a length: one declares as many as a count can, the other none."""
    front = SMALL[:SMALL.index(b"\x00\x02\x01\x00\x05")]
    signals = SMALL[:SMALL.index(b"\x00\x05\x02\x00\x01")]
    for ahead in (front, front + bytes(2), front + bytes(4), signals, front[:-9]):
        yield ahead + b"\xff\xff", ahead + bytes(2)
    yield front + bytes(22) + b"\xff\xff\xff", front + bytes(25)


def few_cases():
    """Files for which each allocation can be refused in turn."""
    every = every_instruction()
    made = [SMALL, every, EMPTY, SMALL[:90], every[:60], every + b"\0"]
    return made + [FIRST, every_instruction(2), FIRST[:90]]


def listed_cases():
    """Files of which all that they hold is to be printed."""
    every = every_instruction()
    yield from (SMALL, every, EMPTY, b"", b"SVAM", b"SVAN\x01", b"SVAM\x03")
    yield from (SMALL + b"\0", every + b"\0", EMPTY + SMALL)
    yield from lone_instructions(SMALL)


def swept(whole):
    """Each beginning of a file, and the file with each byte made another."""
    yield from (whole[:it] for it in range(len(whole)))
    for at, byte in enumerate(whole):
        yield from (
            whole[:at] + bytes([it]) + whole[at + 1:] for it in (0, 255, (byte + 1) % 256))


def cases():
    every = every_instruction()
    for whole in (SMALL, every):
        yield from swept(whole)
    for declared, _ in declared_counts():
        yield declared
    rng = random.Random(1)
    yield from mutants(SMALL, rng, 1000)
    yield from mutants(every, rng, 1000)


def later_listed_cases():
    """Files of version 2, and of other versions than the two, to be listed."""
    second, every = in_version_2(SMALL), every_instruction(2)
    yield from (second, every, FIRST, accepting_first(second, 1), in_version_2(EMPTY))
    yield from (b"SVAM\x02", b"SVAM\x00" + second[5:], b"SVAM\x03" + second[5:])
    yield from (second + b"\0", every + b"\0", second + SMALL)
    # what version 1 can't spell
    yield from (accepting_first(SMALL, 0), accepting_first(SMALL, 1), b"SVAM\x01" + every[5:])
    yield from lone_instructions(second)


def later_cases():
    every = every_instruction(2)
    for whole in (FIRST, every):
        yield from swept(whole)
    rng = random.Random(2)
    yield from mutants(FIRST, rng, 500)
    yield from mutants(every, rng, 500)


def all_are_seen(answers):
    """Whether each instruction stands in a program among what is listed."""
    programs = "\n".join(it for it in answers if it.startswith("Program"))
    return all(re.search(rf"[\[ ]{re.escape(it)}[(,\]]", programs) for it in NAMES.values())


def write_listed(files, path):
    """Writes a file of cases, each to be listed."""
    with open(path, "w") as lines:
        lines.writelines("=" + it.hex() + "\n" for it in files)


def main(folder):
    os.makedirs(f"{folder}/data", exist_ok=True)
    held, answers = [], []
    with open(f"{folder}/data/bytecode_cases.txt", "w") as lines:
        for some_listed, others in ((listed_cases, cases), (later_listed_cases, later_cases)):
            for it in some_listed():
                lines.write("=" + it.hex() + "\n")
                held.append(listed(it))
                answers.append(held[-1])
            for it in others():
                lines.write(it.hex() + "\n")
                answers.append(answer(it))
    assert all_are_seen(held)
    write_part(f"{folder}/stdout", "bytecode", "".join(f"{it}\n" for it in answers))


if __name__ == "__main__":
    if len(sys.argv) != 2:
        sys.exit("bytecode_cases.py FOLDER")
    main(sys.argv[1])
