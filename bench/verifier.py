#!/usr/bin/env python3
"""A program of three parts of a size, written to standard output: bench/verifier.py SHAPE SIZE LIST

The sample code first makes a list of operands of the length LIST, and then works on top of it."""
import os
import sys

sys.path.insert(0, f'{os.path.dirname(os.path.realpath(__file__))}/../scripts/models')
sys.dont_write_bytecode = True

from verifier_model import Program, Section, encode

POSITIONS = 127


SHAPES = {
    'chain': lambda pc, size: [('Not',)],
    # each list is copied, and compared with its copy at the next instruction
    'branches': lambda pc, size: [('Load', 0), ('JumpIfZero', pc + 2)],
    # the same, and all are compared at the end
    'far': lambda pc, size: [('Load', 0), ('JumpIfZero', size - 1)],
}


def sample_code(shape, size, length):
    code = [('Load', 0)] * (length - 1)
    while len(code) < size - 2:
        code += SHAPES[shape](len(code), size)
    return code + [('Not',)] * (size - 1 - len(code)) + [('Halt',)]


def block_of(first, size, position):
    """A block of entries behind tests, each of which may lead past the next."""
    block = []
    while size - len(block) > 2:
        target = first + len(block) + 2
        block += [('Unless', 0, target), ('Enter', min(position + 1 + len(block), POSITIONS - 1))]
    return block + [('Accept',)] * (size - len(block) - 1) + [('Stop',)]


def section(size):
    blocks, each = [], size // POSITIONS
    for position in range(POSITIONS - 1):
        blocks.append(block_of(position * each, each, position))
    left = size - each * (POSITIONS - 1)
    return Section(1, [*blocks, [('Accept',)] * (left - 1) + [('Stop',)]])


def program(shape, size, length):
    room = dict(history=0, stack=1024, attempts=1024, obligations=1024, budget=16777216, atoms=1)
    parts = dict(antecedent=section(size), consequent=section(size))
    return Program(**room, **parts, sample=sample_code(shape, size, length))


if __name__ == '__main__':
    sys.stdout.buffer.write(encode(program(sys.argv[1], *map(int, sys.argv[2:]))))
