#!/usr/bin/env python3
"""Programs in bytecode, written to standard output: bench/bytecode.py SHAPE"""
import os
import sys

sys.path.insert(0, os.path.join(os.path.dirname(os.path.abspath(__file__)), "..", "scripts", "models"))
import bytecode_cases as cases

COUNT = 4096


def sample():
    """Instructions of every kind in turn, each with operands that it may have."""
    operands = {"w": b"\x80", "v": b"\xff" * 16, "t": b"\x12\x34", "p": b"\x00\x01"}
    operands |= {"b": b"\x07", "h": b"\x7f", "l": b"\x03"}
    spelled = [bytes([code]) + b"".join(operands[it] for it in kinds)
               for code, kinds in cases.SAMPLE.items()]
    return b"".join(spelled[place % len(spelled)] for place in range(COUNT))


def section(positions):
    """A section with as many instructions, in blocks of one length."""
    size = COUNT // positions
    block = b"\x40\x01\x02\x03\x41\x05\x42\x43" * (size // 4)
    return bytes(15) + b"\x01" + bytes([positions]) + (size.to_bytes(2, "big") + block) * positions


SHAPES = {"one_block": 1, "many_blocks": 128}


def program(positions):
    small = cases.in_version_2(cases.SMALL)
    front = small[:small.index(b"\x00\x05\x02\x00\x01")]
    return front + COUNT.to_bytes(2, "big") + sample() + section(positions) * 2


if __name__ == "__main__":
    file = program(SHAPES[sys.argv[1]])
    assert cases.answer(file) == "program"
    sys.stdout.buffer.write(file)
