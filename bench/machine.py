#!/usr/bin/env python3
"""The two programs of bench/machine, as files of hexadecimal digits.

bench/machine.py write: writes bench/machine_small.hex and bench/machine_large.hex
bench/machine.py sums FILE CLOCKS: what an independent machine (scripts/models/machine_model.py) comes to
over the trace that bench/machine.c describes: `verdicts V cost K`
"""
import os
import sys

HERE = os.path.dirname(os.path.realpath(__file__))
sys.path.insert(0, f'{HERE}/../scripts/models')
sys.dont_write_bytecode = True

from bytecode_cases import SMALL
from machine_makers import accepting, placed, step
from machine_model import Machine
from verifier_makers import settle
from verifier_model import Program, decode, encode, verdict

VALID, READY, ADDRESS, LENGTH, SIZE, BURST, SEEN = range(1, 8)
TRACE_ROWS = 65536
VERDICTS = {'Holds': 0, 'Vacuous': 1, 'Fails': 2, 'Disabled': 3}

# Behind an offer that waits there is another one, its burst keeps its kind and passes no border of
# 4,096 bytes; a counter counts what was taken.
WAITS = [('Load', VALID), ('Load', READY), ('Not',), ('And',), ('SetAtom', 0)]
OFFERS = [('Load', VALID), ('SetAtom', 1)]
MASK = [('Push', 20, 1), ('Load', SIZE), ('Shl',), ('Push', 20, 1), ('Sub',), ('Not',)]
BEGIN = [('Load', ADDRESS), ('Slice', 11, 0), ('Zext', 20), *MASK, ('And',)]
TOTAL = [('Load', LENGTH), ('Zext', 20), ('Push', 20, 1), ('Add',), ('Load', SIZE), ('Shl',)]
BORDER = [('Push', 20, 4096), *BEGIN, *TOTAL, ('Add',), ('Lt',), ('Not',)]
KIND = [('Load', BURST), ('Past', BURST, 1), ('Eq',)]
COUNT = [('Load', VALID), ('Load', READY), ('And',), ('Zext', 16), ('Load', SEEN), ('AddSat',)]
SAMPLE = [*WAITS, *OFFERS, *BORDER, *KIND, ('And',), ('SetAtom', 2), *COUNT, ('Store', 0)]


def large():
    """A program of 40 instructions of sample code, with two positions of the antecedent."""
    widths = ((1, 'valid'), (1, 'ready'), (32, 'addr'), (8, 'len'), (3, 'size'), (2, 'burst'))
    return settle(Program(
        atoms=3, name=b'p_aw_4k', clock=b'top.clk', counters=[16],
        signals=[(width, f'top.aw{name}'.encode()) for width, name in widths],
        sample=[*SAMPLE, ('Halt',)],
        antecedent=placed(1, step(0, ('Enter', 1)), step(1, ('Accept',))),
        consequent=accepting(2)))


def write(name, file):
    digits = file.hex()
    with open(f'{HERE}/machine_{name}.hex', 'w') as out:
        out.writelines(f'{digits[it:it + 96]}\n' for it in range(0, len(digits), 96))


def trace_of(program):
    """The rows of the trace, one after the other."""
    x = 0x9e3779b97f4a7c15
    while True:
        row = []
        for width, _ in program.signals:
            x ^= x << 13 & (1 << 64) - 1
            x ^= x >> 7
            x ^= x << 17 & (1 << 64) - 1
            row.append(x & (1 << width) - 1)
        yield row


def sums(path, clocks):
    """Over all that was decided, start * 31 + verdict * 7 + clock; and all cost."""
    assert clocks <= TRACE_ROWS
    with open(path) as file:
        program = decode(bytes.fromhex(file.read()))
    machine, rows, verdicts, cost = Machine(program), trace_of(program), 0, 0
    for _ in range(clocks):
        for start, name, clock in machine.clock(next(rows)):
            verdicts += start * 31 + VERDICTS[name] * 7 + clock
        cost += machine.spent
    return f'verdicts {verdicts % (1 << 64)} cost {cost}'


def main(words):
    if words == ['write']:
        program = large()
        assert len(program.sample) == 40 and verdict(program).startswith('accepted')
        write('small', SMALL)
        write('large', encode(program, 1))
    elif len(words) == 3 and words[0] == 'sums':
        print(sums(words[1], int(words[2])))
    else:
        sys.exit(__doc__)


if __name__ == '__main__':
    main(sys.argv[1:])
