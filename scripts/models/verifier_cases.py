#!/usr/bin/env python3
"""Makes programs with the answers of an independent verifier.

`scripts/models/verifier_cases.py FOLDER` writes FOLDER/data/verifier_cases.txt, a file of bytecode in hexadecimal
digits on each line, and the part `verifier` of FOLDER/stdout, for each line what a program that is accepted needs, or
the fault. With `-f FILE` it writes a few files alone.
"""
import collections
import copy
import itertools
import os
import random
import sys

import bytecode_cases
from stored_parts import write_part
from verifier_makers import EITHER, WIDTHS, random_program, settle
from verifier_model import (
    CODES, COMPARES, JOINS, MOST, NAMES, REDUCES, SHIFTS, TAKEN, Program, Section, answer_to,
    decode, encode, faults_of)

HALT, STOP, ACCEPT, FIRST = ("Halt",), ("Stop",), ("Accept",), ("AcceptFirst",)
LOAD, SET = ("Load", 0), ("SetAtom", 0)
WIDE = ("Push", 8, 0)
SMALL = decode(bytecode_cases.SMALL)


def changed(program, **fields):
    it = copy.deepcopy(program)
    for name, value in fields.items():
        setattr(it, name, value)
    return it


def empty(**fields):
    """The small program without positions."""
    bare = {"antecedent": Section(), "consequent": Section(), "budget": 8}
    return changed(SMALL, **bare | fields)


def pooled(**fields):
    """The small program whose first position enters a second one."""
    blocks = [[("Unless", 0, 2), ("Enter", 1), STOP], [("Unless", 1, 5), ACCEPT, STOP]]
    room = {"antecedent": Section(1, blocks), "attempts": 2, "budget": 25}
    return changed(SMALL, **room | fields)


def lowest_entry(position):
    blocks = copy.deepcopy(pooled().antecedent.blocks)
    blocks[0][1] = ("Enter", position)
    return pooled(antecedent=Section(1, blocks))


def row_cases():
    """Small programs, each with the answer that was worked out by hand."""
    one = ("Load", 1)
    fits = "accepted history 0 stack 1 attempts 1 obligations 1 budget"
    yield SMALL, f"{fits} 14 lives 1 1"
    yield empty(), f"{fits} 8 lives 1 1"
    yield empty(budget=7), "F14 BudgetTooSmall 8"
    yield empty(sample=[one, WIDE, ("And",), HALT]), "F1 Operand 2"
    yield empty(sample=[SET, HALT]), "F2 Underflow 0"
    yield empty(sample=[("Push", 1, 0)] * 1025 + [HALT]), "F3 Overflow 1024"
    yield empty(sample=[one, ("JumpIfZero", 3), one, HALT]), "F6 JoinMismatch 3"
    yield empty(sample=[one, ("Jump", 3), one, HALT]), "F7 Unreached 2"
    yield empty(sample=[one]), "F8 NoHalt"
    yield empty(sample=[]), "F8 NoHalt"
    yield pooled(), "accepted history 0 stack 1 attempts 2 obligations 1 budget 25 lives 2 1"
    yield pooled(attempts=1), "F13 PoolTooSmall attempts 2"
    yield pooled(budget=24), "F14 BudgetTooSmall 25"
    yield lowest_entry(0), "F12 Cycle 0"
    yield changed(SMALL, attempts=0), "F13 PoolTooSmall attempts 1"
    yield changed(SMALL, obligations=0), "F13 PoolTooSmall obligations 1"
    yield changed(SMALL, stack=0), "F11 StackTooShort 1"
    yield changed(SMALL, budget=13), "F14 BudgetTooSmall 14"
    yield changed(SMALL, sample=[("Past", 1, 1), *SMALL.sample[1:]]), "F10 HistoryTooShort 1"
    yield changed(SMALL, sample=[("Load", 3), *SMALL.sample[1:]]), "F9 SlotRange 0"
    yield changed(SMALL, sample=[("Jump", 0), HALT]), "F5 BackwardJump 0"
    yield changed(SMALL, sample=[("Jump", 2), HALT]), "F4 JumpRange 0"
    outside = Section(1, [[("Unless", 1, 3), ACCEPT, STOP]])
    yield changed(SMALL, consequent=outside), "F4 JumpRange 0"
    stops = Section(1, [[STOP]] * 128)
    yield changed(SMALL, antecedent=stops), "F15 LimitTooLarge antecedent positions"


def spelled(sample="00050200013200020002320134", limits="00000001000100010000000e", start=f"{1:032x}",
            first="010003400000024243", second="010003400100024243", bare=False):
    """The small program with parts of it spelled otherwise, in hexadecimal digits; or that without positions."""
    names = "ff020001720007746f702e636c6b0002010005746f702e78010005746f702e790000"
    sections = "00" * 34 if bare else start + first + f"{1:032x}" + second
    return decode(bytes.fromhex("5356414d01" + limits + names + sample + sections))


def sample_cases():
    """Sample code with the fault that was worked out by hand from the tables of instructions and of faults."""
    pushed, byte = "020001", "0108" + 16 * "00"
    yield from ((f"0003{byte}{it}34", "F1 Operand 1") for it in ("2707", "280800", "310002", "3200"))
    yield f"0004020001{byte}1034", "F1 Operand 2"
    yield "0002320034", "F2 Underflow 0"
    yield from ((f"0003020001{it}34", "F2 Underflow 1") for it in ("10", "29", "26"))
    yield f"0402{1025 * pushed}34", "F3 Overflow 1024"
    yield f"0401{1024 * pushed}34", "F11 StackTooShort 1024"
    yield from ((f"0401{1024 * pushed}{it}", "F3 Overflow 1024") for it in ("020001", "0203e7"))
    yield "000230000234", "F4 JumpRange 0"
    yield "000230000034", "F5 BackwardJump 0"
    yield "000402000131000302000134", "F6 JoinMismatch 3"
    yield f"0006020001310004020001300005{byte}34", "F6 JoinMismatch 5"
    yield "000402000130000302000134", "F7 Unreached 2"
    yield "00023434", "F7 Unreached 1"
    yield from ((it, "F8 NoHalt") for it in ("0001020001", "0000"))
    yield "0003020003320034", "F9 SlotRange 0"
    yield from ((it, "F9 SlotRange 1") for it in ("0003020001320234", "0003020001330034"))
    yield "000503000100013200020002320134", "F10 HistoryTooShort 1"


def block_cases():
    """Blocks of the antecedent with the fault that was worked out by hand."""
    yield "020003400000034101430003400100054243", "F4 JumpRange 0"
    yield "020003400000024101430003400100024243", "F5 BackwardJump 3"
    yield "010003434243", "F7 Unreached 1"
    yield from ((it, "F8 NoHalt") for it in ("01000142", "010000"))
    yield "01000342410143", "F9 SlotRange 1"
    yield "020003400000024100430003400100054243", "F12 Cycle 0"
    yield from ((it, "F12 Cycle 1") for it in ("020001430002410143", "020001430002410043"))
    yield "7f" + 127 * "000143", "F14 BudgetTooSmall 138"
    yield "80" + 128 * "000143", "F15 LimitTooLarge antecedent positions"


def limit_rows():
    """Declared limits with what was worked out by hand: each at its most, and one more."""
    yield "00000001000000010000000e", "F13 PoolTooSmall attempts 1"
    yield "00000001000100000000000e", "F13 PoolTooSmall obligations 1"
    yield "00000001000000000000000e", "F13 PoolTooSmall attempts 1"
    yield "100004000400040001000000", "accepted history 0 stack 1 attempts 1 obligations 1 budget 14 lives 1 1"
    yield "100104000400040001000000", "F15 LimitTooLarge history"
    yield "100004010400040001000000", "F15 LimitTooLarge stack"
    yield "100004000401040001000000", "F15 LimitTooLarge attempts"
    yield "100004000400040101000000", "F15 LimitTooLarge obligations"
    yield "100004000400040001000001", "F15 LimitTooLarge budget"


def spelled_cases():
    """Programs spelled by hand, with their answers. Of several faults the lowest part decides, then the lowest
    instruction."""
    yield from ((spelled(sample=it, bare=True), answer) for it, answer in sample_cases())
    yield from ((spelled(first=it), answer) for it, answer in block_cases())
    yield from ((spelled(limits=it), answer) for it, answer in limit_rows())
    two = "020003400000024101430003400100054243"
    yield spelled(first=two, limits="000000010001000100000019"), "F13 PoolTooSmall attempts 2"
    yield spelled(first=two, limits="000000010002000100000018"), "F14 BudgetTooSmall 25"
    yield spelled(start=f"{3:032x}"), "F9 SlotRange 0"
    zeros, endless, wrong = 24 * "0", "01000142", "01000140020009"
    yield spelled("0002320034", zeros, first=endless, second=wrong), "F2 Underflow 0"
    yield spelled(limits=zeros, first=endless, second=wrong), "F8 NoHalt"
    yield spelled(limits=zeros, second=wrong), "F4 JumpRange 0"
    yield spelled(limits=zeros), "F11 StackTooShort 1"


def roomy(**fields):
    """A program with room for whatever it may need, and with little else."""
    room = {"history": 4096, "stack": 1024, "attempts": 1024, "obligations": 1024}
    return Program(**room | {"budget": 16777216, "sample": [HALT]} | fields)


def operand_codes():
    """Each instruction that takes operands, in several forms."""
    yield from ((it,) for it in (*JOINS, *COMPARES, *SHIFTS, *REDUCES, "Not", "Concat", "Mux"))
    yield from (("Zext", it) for it in (1, 2, 127, 128))
    yield from (("Slice", *it) for it in ((0, 0), (1, 0), (1, 1), (126, 3), (127, 0), (127, 127)))
    yield from ((SET, ("Store", 0), ("Store", 1), ("Store", 2), ("Store", 3)))


def operand_cases():
    """Each instruction on lists of up to three operands of the widths at the borders."""
    widths = (1, 2, 127, 128)
    for instr in operand_codes():
        most = 3 if instr == ("Mux",) else 2 if len(instr) == 1 else 1
        for count in range(most + 1):
            for taken in itertools.product(widths, repeat=count):
                code = [("Load", widths.index(it)) for it in taken]
                signals = [(it, b"s") for it in widths[1:]]
                yield roomy(signals=signals, counters=[1, 2, 128], sample=[*code, instr, HALT])


def short_codes(rng):
    """Short codes and blocks of a few instructions: all of two, and some of more."""
    jumps = [(name, it) for name in ("Jump", "JumpIfZero") for it in range(1, 5)]
    letters = [LOAD, ("Not",), SET, HALT, *jumps]
    for size in (0, 1, 2):
        yield from (roomy(sample=[*it]) for it in itertools.product(letters, repeat=size))
    for _ in range(160):
        body = rng.choices(letters, k=rng.randrange(2, 6))
        yield roomy(sample=[LOAD, *body, HALT])
    letters = [STOP, ACCEPT, ("Enter", 0), ("Enter", 1), *(("Unless", 0, it) for it in range(1, 6))]
    for name in ("antecedent", "consequent"):
        for _ in range(80):
            blocks = [rng.choices(letters, k=rng.randrange(4)) + [STOP] for _ in range(2)]
            yield roomy(**{name: Section(rng.randrange(4), blocks)})


def sample_fault(code, pc):
    """Instructions from a place on, with an empty list, of which the last has the fault."""
    return {
        1: [WIDE, SET], 2: [SET], 3: [LOAD] * 1025, 4: [("Jump", 9999)], 5: [("Jump", pc)],
        6: [LOAD, ("JumpIfZero", pc + 3), LOAD, HALT], 7: [HALT, HALT], 8: [LOAD],
        9: [("Load", 999)],
    }[code]


def block_fault(code, pc, position):
    """The same in the block of a position."""
    return {
        4: [("Unless", 0, 9999)], 5: [("Unless", 0, pc)], 7: [STOP, STOP], 8: [ACCEPT],
        9: [("Unless", 99, pc + 1)], 12: [("Enter", position)],
    }[code]


SAMPLE_FAULTS = (1, 2, 3, 4, 5, 6, 7, 8, 9)
BLOCK_FAULTS = (4, 5, 7, 8, 9, 12)
LIMITS = ("history", "stack", "attempts", "obligations", "budget")


def ended(code, body, end):
    return body if code == 8 else [*body, end]


def sample_with(code):
    return ended(code, sample_fault(code, 0), HALT)


def section_with(code):
    return Section(0, [ended(code, block_fault(code, 0, 0), STOP)])


def two_places():
    """Two faults at two places of one code, both of which are reached, in both orders."""
    for first, second in itertools.product(SAMPLE_FAULTS[:-2] + (9,), SAMPLE_FAULTS):
        front = sample_fault(first, 2)
        rest = ended(second, sample_fault(second, 2 + len(front)), HALT)
        yield roomy(sample=[LOAD, ("JumpIfZero", 2 + len(front)), *front, *rest])
    for first, second in itertools.product((4, 5, 7, 9, 12), BLOCK_FAULTS):
        front = block_fault(first, 1, 0)
        rest = ended(second, block_fault(second, 1 + len(front), 0), STOP)
        block = [("Unless", 0, 1 + len(front)), *front, *rest]
        yield roomy(antecedent=Section(0, [block]))
        yield roomy(consequent=Section(0, [block]))


def two_blocks():
    for first, second in itertools.product(BLOCK_FAULTS, repeat=2):
        front = ended(first, block_fault(first, 0, 0), STOP)
        rest = ended(second, block_fault(second, len(front), 1), STOP)
        yield roomy(antecedent=Section(3, [front, rest]))
        yield roomy(consequent=Section(3, [front, rest]))


def joined_lists(instr, *rest):
    return [LOAD, ("JumpIfZero", 3), LOAD, instr, *rest]


def one_place_in_sample():
    """Several faults at one instruction of sample code."""
    for target in (9999, 0):
        jump, test = ("Jump", target), ("JumpIfZero", target)
        yield from ([WIDE, test, HALT], [WIDE, test], [test, HALT], [test], [jump], [HALT, jump])
        yield from ([HALT, jump, HALT], joined_lists(jump), joined_lists(jump, HALT))
        yield from ([HALT, test, HALT], joined_lists(test, HALT))
    for instr in (("SetAtom", 99), ("Store", 0), SET, ("Load", 999), ("Past", 999, 5), LOAD):
        for front in ([], [WIDE], [LOAD], [HALT], [LOAD] * 1024):
            yield from ([*front, instr, HALT], [*front, instr])
        yield from (joined_lists(instr, HALT), joined_lists(instr))


def one_place_in_blocks():
    """Several faults at one instruction of blocks, also where an empty block begins."""
    faulty = [("Unless", atom, target) for atom in (0, 99) for target in (0, 1, 9999)]
    faulty += [("Enter", 0), ("Enter", 99), ACCEPT, STOP]
    for instr in faulty:
        yield from ([[instr, STOP]], [[instr]], [[STOP, instr, STOP]], [[STOP, instr]])
        yield from ([[], [instr, STOP]], [[], [instr]], [[STOP], [], [instr, STOP]])
        yield [[STOP], [instr, STOP]]
    yield from ([[]], [[], []], [[STOP], []], [[], [STOP]], [[STOP], [], [STOP]])


def one_place():
    yield from (roomy(sample=it) for it in one_place_in_sample())
    for number, blocks in enumerate(one_place_in_blocks()):
        for start in (0, 1 << len(blocks), 1 << 127):
            name = ("antecedent", "consequent")[number % 2]
            yield roomy(**{name: Section(start, copy.deepcopy(blocks))})


def oversized():
    """For each field of a program what is one over its most."""
    yield from ({name: MOST[name] + 1} for name in [*LIMITS, "atoms"])
    yield {"counters": [1] * 256}
    yield {"sample": [LOAD] + [("Not",)] * 4095 + [HALT]}
    for name in ("antecedent", "consequent"):
        yield {name: Section(0, [[STOP]] * 128)}
        yield {name: Section(0, [[ACCEPT] * 4096 + [STOP]])}


def header_cases():
    """The header's faults, each two of them."""
    faults = [{"disable": 254}, *oversized()]
    yield from (roomy(**it) for it in faults)
    for one, other in itertools.combinations(faults, 2):
        if not one.keys() & other.keys():
            yield roomy(**one | other)
    yield roomy(antecedent=Section(0, [[STOP]] * 127 + [[ACCEPT] * 4096]))
    yield roomy(consequent=Section(0, [[STOP]] * 127 + [[ACCEPT] * 4096]))


def two_sections():
    """Two faults in two of the header, the three codes and the declared limits."""
    low = dict.fromkeys(LIMITS, 0)
    parts = [
        [{"disable": 2}, {"budget": 16777217}, {"atoms": 128}],
        [{"sample": sample_with(it)} for it in SAMPLE_FAULTS],
        [{"antecedent": section_with(it)} for it in BLOCK_FAULTS],
        [{"consequent": section_with(it)} for it in BLOCK_FAULTS],
        [low]]
    for one, other in itertools.combinations(parts, 2):
        for fields, more in itertools.product(one, other):
            yield roomy(**more | fields)


def limit_cases(rng):
    """Each limit, and each two, one below the least or more."""
    for round_number in range(12):
        whole = random_program(rng, 2, 2, [("Past", 0, rng.randrange(1, 9)), SET])
        yield whole
        yield from (changed(whole, **{it: getattr(whole, it) + 1}) for it in LIMITS)
        for names in [*itertools.combinations(LIMITS, 1), *itertools.combinations(LIMITS, 2)]:
            cut = (1, rng.randrange(1, 9))[round_number % 2]
            yield changed(whole, **{it: max(0, getattr(whole, it) - cut) for it in names})


def history_cases():
    for back in (1, 64, 4095, 4096, 4097, 65535):
        code, most = [("Past", 0, 1), ("Past", 0, back), SET, HALT], min(back, 4096)
        yield from (roomy(sample=code, history=it) for it in (0, most - 1, most))


def stack_cases():
    for count in (1, 2, 1023, 1024, 1025):
        pushes = [LOAD] * count + [HALT]
        yield from (roomy(sample=pushes, stack=it) for it in (0, count - 1, count) if it <= 1024)


def full_stack_cases():
    """Instructions on a list of the most operands."""
    more = [("Load", 0)] * 3
    for instr in (("Push", 8, 0), ("Past", 0, 1), ("Not",), ("Zext", 2), ("Slice", 0, 0), ("And",),
                  ("Eq",), ("Shl",), ("Concat",), ("Mux",), SET, ("JumpIfZero", 1025)):
        count = TAKEN.get(instr[0], 0)
        yield roomy(sample=[LOAD] * 1024 + [instr, *more[:count], HALT])
    yield roomy(sample=[LOAD] * 1024 + [("Jump", 1025), LOAD, HALT])
    yield roomy(sample=[LOAD] * 1024 + [("JumpIfZero", 1027), LOAD, LOAD, HALT])


def leading_cases():
    """Tests in two blocks, of which each leads anywhere."""
    for target in range(8):
        test = ("Unless", 0, target)
        for blocks in ([[test, ACCEPT, STOP], [ACCEPT, STOP]], [[ACCEPT, STOP], [test, STOP]]):
            yield roomy(antecedent=Section(3, blocks))
            yield roomy(consequent=Section(3, blocks))


def chain(positions):
    """A section in which each position enters the next one and the last."""
    blocks = [[("Enter", it), ("Enter", positions - 1), STOP] for it in range(1, positions)]
    return Section(1, [*blocks, [ACCEPT, STOP]])


def header_border_cases():
    """Limits and atoms at the most and far over it, and disabling atoms at the border."""
    yield from (roomy(**{it: MOST[it] - below}) for it in [*LIMITS, "atoms"] for below in (0, 1))
    yield from (roomy(**{it: 65535}) for it in LIMITS)
    yield from (roomy(budget=4294967295), roomy(atoms=255), roomy(atoms=127, disable=126))
    yield from (roomy(atoms=127, disable=127), roomy(atoms=0, disable=0), roomy(atoms=0))
    yield from (roomy(disable=it) for it in range(4))


def slot_cases():
    """As many slots as there may be, and one more."""
    for size in (255, 256):
        load = [("Load", size - 1), ("Load", size), HALT]
        yield roomy(signals=[(1, b"s")] * size, sample=load)
        yield roomy(signals=[(1, b"s")] * (size - 5), counters=[9] * 5, sample=load)
        yield roomy(counters=[9] * size, sample=load[:1] + [HALT])


def size_cases():
    """As many instructions as there may be, and one more."""
    for size in (4096, 4097):
        yield roomy(sample=[LOAD] + [("Not",)] * (size - 2) + [HALT])
        for name in ("antecedent", "consequent"):
            yield roomy(**{name: Section(1, [[ACCEPT] * (size - 1) + [STOP]])})
            yield roomy(**{name: Section(1, [[STOP]] * 126 + [[ACCEPT] * (size - 127) + [STOP]])})


def chain_cases():
    """Positions that live as long as they can."""
    for count in (1, 2, 126, 127, 128, 255):
        yield roomy(antecedent=chain(count))
        yield roomy(consequent=chain(count))
    yield settle(roomy(antecedent=chain(127), consequent=chain(127)))


def start_cases():
    """Start sets of the last position, and of the one after it."""
    for bit in (0, 1, 126, 127):
        yield roomy(antecedent=Section(1 << bit, [[STOP]] * bit + [[STOP]] * (bit < 127)))
        yield roomy(consequent=Section(1 << bit, [[STOP]] * bit))


def fixed_cases():
    """All cases that nothing random makes, but for the first."""
    yield from itertools.chain(two_places(), two_blocks(), one_place(), header_cases())
    yield from itertools.chain(two_sections(), history_cases(), stack_cases(), full_stack_cases())
    yield from itertools.chain(leading_cases(), header_border_cases(), slot_cases(), size_cases())
    yield from itertools.chain(chain_cases(), start_cases())


def random_instr(rng, program, section, size, version):
    """Any instruction of a kind of code in a version, near what a program has."""
    last = {1: 0x43, 2: 0x44}[version]
    names = [
        it for it, (code, _) in CODES.items() if (code < 0x40) == (section == 1) and code <= last]
    name = rng.choice(names)
    numbers = {
        "Push": lambda: (rng.choice(WIDTHS), 1), "Zext": lambda: (rng.choice(WIDTHS),),
        "Slice": lambda: rng.choice(((0, 0), (7, 0), (7, 4), (127, 64))),
        "Past": lambda: (rng.randrange(len(program.widths()) + 1), rng.randrange(1, 4)),
        "Load": lambda: (rng.randrange(len(program.widths()) + 1),),
        "Store": lambda: (rng.randrange(len(program.counters) + 1),),
        "SetAtom": lambda: (rng.randrange(program.atoms + 1),),
        "Unless": lambda: (rng.randrange(program.atoms + 1), rng.randrange(size + 1)),
        "Enter": lambda: (rng.randrange(7),),
    }
    jump = lambda: (rng.randrange(size + 2),)
    return (name, *numbers.get(name, jump if "Jump" in name else tuple)())


def retargeted(rng, instr, size):
    name, *operands = instr
    if name in ("Push", "Slice") or not operands:
        return instr
    last = operands[-1] + rng.choice((-2, -1, 1, 1, 2, 3))
    if name in ("Jump", "JumpIfZero", "Unless") and rng.randrange(2):
        last = rng.randrange(size + 1)
    low, high = (1, 128) if name in ("Zext", "Past") else (0, 127)
    return (name, *operands[:-1], min(max(last, low), high))


def mutate_code(rng, program, section, code, size, version):
    """Changes one instruction, its place or its number of times."""
    way, at = rng.randrange(5), rng.randrange(len(code))
    if way == 0:
        code[at] = random_instr(rng, program, section, size, version)
    elif way == 1:
        code.insert(at, random_instr(rng, program, section, size, version))
    elif way == 2:
        del code[at]
    elif way == 3:
        other = rng.randrange(len(code))
        code[at], code[other] = code[other], code[at]
    else:
        jumps = [it for it, instr in enumerate(code) if len(instr) > 1]
        at = rng.choice(jumps or [at])
        code[at] = retargeted(rng, code[at], size)


def mutate_header(rng, program):
    way = rng.randrange(6)
    if way == 0 and program.signals:
        del program.signals[rng.randrange(len(program.signals))]
    elif way == 1 and program.counters:
        program.counters[rng.randrange(len(program.counters))] = rng.choice(WIDTHS)
    elif way == 2 and program.counters:
        del program.counters[-1]
    elif way == 3 and program.atoms:
        program.atoms -= 1
    elif way == 4:
        program.disable = rng.randrange(program.atoms + 2)
    else:
        section = rng.choice((program.antecedent, program.consequent))
        section.start ^= 1 << rng.randrange(len(section.blocks) + 1)


def mutant(rng, whole, version=1):
    """A program with one change or a few, and often with room for what it now needs."""
    program = copy.deepcopy(whole)
    for _ in range(rng.choice((1, 1, 1, 2, 3))):
        codes = [(1, program.sample, len(program.sample))] * 2
        for number, section in ((2, program.antecedent), (3, program.consequent)):
            codes += [(number, it, section.size()) for it in section.blocks]
        section, code, size = rng.choice(codes)
        if code and rng.randrange(7):
            mutate_code(rng, program, section, code, size, version)
        else:
            mutate_header(rng, program)
    return changed(program, **{it: MOST[it] for it in LIMITS}) if rng.randrange(3) else program


def byte_mutants(rng, whole, count, version=1):
    """Programs that a file spells of which a few bytes were changed."""
    data = encode(whole, version)
    for _ in range(count):
        it = bytearray(data)
        for _ in range(rng.choice((1, 1, 2))):
            place = rng.randrange(5, len(it))
            it[place] = rng.choice((it[place] ^ 1 << rng.randrange(8), rng.randrange(256)))
        if bytecode_cases.answer(bytes(it)) == "program":
            yield decode(bytes(it))


def random_cases(rng):
    """Programs that are accepted, and mutants of them."""
    for _ in range(780):
        whole = random_program(rng, rng.randrange(1, 4), rng.choice((1, 1, 2, 2, 3)))
        yield whole
        yield mutant(rng, whole)
        yield from byte_mutants(rng, whole, rng.randrange(2))
        if rng.randrange(8) == 0:
            yield changed(whole, budget=whole.budget - 1)
        if rng.randrange(8) == 0:
            yield changed(whole, **{it: getattr(whole, it) + rng.randrange(9) for it in LIMITS})


def all_cases():
    """All programs, after those with answers that were worked out by hand."""
    rng = random.Random(1)
    for program, answer in row_cases():
        assert answer_to(program, faults_of(program)) == answer, answer
        yield program
    yield from operand_cases()
    yield from short_codes(rng)
    yield from fixed_cases()
    yield from limit_cases(rng)
    yield from random_cases(rng)


def swept_cases():
    """Those programs that the smallest file spells with a byte made 0, 255 or one more."""
    whole = bytecode_cases.SMALL
    for file in bytecode_cases.swept(whole):
        is_other = len(file) == len(whole) and file != whole
        if is_other and bytecode_cases.answer(file) == "program":
            yield decode(file)


def first_rows():
    """Programs with AcceptFirst, each with the answer that was worked out by hand."""
    one, two = changed(SMALL, antecedent=accepting(FIRST)), changed(SMALL, consequent=accepting(FIRST))
    yield one, "accepted history 0 stack 1 attempts 1 obligations 1 budget 14 lives 1 1"
    yield two, "F16 AcceptKind 1"
    yield changed(one, consequent=two.consequent), "F16 AcceptKind 1"
    yield changed(two, budget=13), "F16 AcceptKind 1"
    yield changed(two, budget=16777217), "F15 LimitTooLarge budget"
    yield changed(two, disable=2), "F9 SlotRange 0"
    yield changed(two, sample=[SET, HALT]), "F2 Underflow 0"
    yield changed(two, antecedent=Section(1, [[("Enter", 0), STOP]])), "F12 Cycle 0"
    later = [[ACCEPT, STOP], [STOP], [ACCEPT, FIRST, STOP]]
    yield changed(SMALL, consequent=Section(1, later)), "F16 AcceptKind 4"
    for body, answer in (
            ([FIRST, ("Unless", 0, 9999), STOP], "F16 AcceptKind 0"),
            ([("Unless", 0, 9999), FIRST, STOP], "F4 JumpRange 0"),
            ([FIRST], "F8 NoHalt"), ([STOP, FIRST, STOP], "F7 Unreached 1"),
            ([FIRST, FIRST, STOP], "F16 AcceptKind 0")):
        yield changed(SMALL, consequent=Section(1, [body])), answer
    yield changed(SMALL, consequent=Section(2, [[FIRST, STOP]])), "F9 SlotRange 0"
    yield changed(SMALL, antecedent=Section(2, [[FIRST, STOP]])), "F9 SlotRange 0"


def accepting(accept):
    """The small program's section, which accepts so."""
    return Section(1, [[("Unless", 0, 2), accept, STOP]])


def first_places():
    """AcceptFirst before and after each other fault of a block, in each section."""
    for code in BLOCK_FAULTS:
        before = [FIRST, *ended(code, block_fault(code, 1, 0), STOP)]
        blocks = [[before], [[FIRST, STOP], ended(code, block_fault(code, 2, 1), STOP)]]
        if code != 8:
            blocks.append([[("Unless", 0, 1), *block_fault(code, 1, 0), FIRST, STOP]])
        blocks.append([ended(code, block_fault(code, 0, 0), STOP), [FIRST, STOP]])
        for it in blocks:
            yield roomy(antecedent=Section(0, copy.deepcopy(it)))
            yield roomy(consequent=Section(0, it))
    for blocks in ([[FIRST, STOP]], [[FIRST]], [[STOP, FIRST]], [[STOP], [FIRST, STOP]], [[FIRST, ACCEPT, STOP]]):
        for start in (0, 1 << len(blocks)):
            yield roomy(antecedent=Section(start, copy.deepcopy(blocks)))
            yield roomy(consequent=Section(start, copy.deepcopy(blocks)))


def first_sections():
    """AcceptFirst in the consequent beside a fault of another part."""
    wrong = {"consequent": Section(0, [[FIRST, STOP]])}
    low = dict.fromkeys(LIMITS, 0)
    for fields in ({"disable": 2}, {"budget": 16777217}, {"atoms": 128}, low):
        yield roomy(**wrong | fields)
    yield from (roomy(sample=sample_with(it), **wrong) for it in SAMPLE_FAULTS)
    yield from (roomy(antecedent=section_with(it), **wrong) for it in BLOCK_FAULTS)


def later_cases():
    """Programs of version 2, after those with answers that were worked out by hand."""
    rng = random.Random(3)
    for program, answer in first_rows():
        assert answer_to(program, faults_of(program)) == answer, answer
        yield program
    yield from itertools.chain(first_places(), first_sections())
    for _ in range(200):
        whole = random_program(rng, rng.randrange(1, 3), 1, accepts=EITHER)
        yield whole
        yield mutant(rng, whole, 2)
        yield from byte_mutants(rng, whole, rng.randrange(2), 2)


def few_cases():
    """Programs for which each allocation can be refused in turn."""
    rng = random.Random(2)
    yield from (SMALL, pooled(), empty(sample=[LOAD, ("JumpIfZero", 3), LOAD, HALT]))
    yield changed(SMALL, budget=13)
    yield random_program(rng, 3, 2)


def first_few():
    """The same of version 2."""
    yield from (it for it, _ in list(first_rows())[:2])


def pairs_of(found):
    """Which numbers stand at one place, at two places of a section, and in two sections."""
    for one, other in itertools.combinations(sorted(found), 2):
        same = "place" if one[:2] == other[:2] else "section" if one[0] == other[0] else "program"
        codes = (one[2], other[2])
        yield same, codes if same != "place" else tuple(sorted(codes))


# The numbers that can meet at one instruction.
MEETING = {
    1: (4, 5, 8, 9), 2: (4, 5, 8, 9), 3: (8, 9), 4: (6, 7, 8, 9), 5: (6, 7, 8, 9),
    6: (8, 9), 7: (8, 9, 12), 8: (9, 12), 9: (12, 15), 10: (11, 13, 14), 11: (13, 14), 13: (13, 14),
    15: (15,),
}

# Those of AcceptFirst in a consequent, which comes last at its place.
FIRST_MEETING = (7, 8, 9)


def wanted_pairs():
    yield from (("place", (one, it)) for one, others in MEETING.items() for it in others)
    fronts = itertools.product((1, 2, 3, 4, 5, 6, 7, 9), SAMPLE_FAULTS)
    yield from (("section", it) for it in fronts)
    yield from (("section", it) for it in itertools.product(BLOCK_FAULTS, repeat=2))
    parts = ((9, 15), SAMPLE_FAULTS, BLOCK_FAULTS, BLOCK_FAULTS)
    for one, other in itertools.combinations(parts, 2):
        yield from (("program", it) for it in itertools.product(one, other))


def wanted_later_pairs():
    """The pairs with AcceptFirst in a consequent."""
    yield from (("place", (it, 16)) for it in FIRST_MEETING)
    yield from (("section", (16, it)) for it in BLOCK_FAULTS)
    yield from (("section", (it, 16)) for it in BLOCK_FAULTS)
    yield from (("program", (it, 16)) for it in {*SAMPLE_FAULTS, *BLOCK_FAULTS, 9, 15})


def counted(answers):
    return collections.Counter(it.split()[0] for it in answers)


def check_spread(seen, answers):
    """The kinds of answers and of pairs are all there."""
    missing = sorted(set(wanted_pairs()) - seen)
    assert not missing, missing
    counts = counted(answers)
    assert counts["accepted"] * 3 >= len(answers), counts
    assert all(counts[f"F{it}"] >= 30 for it in range(1, 16)), counts


def judged(programs, version):
    """The files of programs in a version, their answers, and the pairs of faults that are seen."""
    lines, answers, seen = [], [], set()
    for program in programs:
        found = faults_of(program)
        lines.append(encode(program, version).hex())
        answers.append(answer_to(program, found))
        seen.update(pairs_of(found))
    return lines, answers, seen


def check_later_spread(seen, answers):
    """The kinds of answers and pairs that version 2 adds are all there."""
    missing = sorted(set(wanted_later_pairs()) - seen)
    assert not missing, missing
    counts = counted(answers)
    assert counts["F16"] >= 25 and counts["accepted"] * 3 >= len(answers), counts


def write(folder):
    os.makedirs(f"{folder}/data", exist_ok=True)
    lines, answers, seen = judged(all_cases(), 1)
    check_spread(seen, answers)
    for program, answer in spelled_cases():
        assert answer_to(program, faults_of(program)) == answer, answer
        lines.append(encode(program, 1).hex())
        answers.append(answer)
    swept_lines, swept_answers, _ = judged(swept_cases(), 1)
    later_lines, later_answers, seen = judged(later_cases(), 2)
    check_later_spread(seen, later_answers)
    lines += swept_lines + later_lines
    answers += swept_answers + later_answers
    with open(f"{folder}/data/verifier_cases.txt", "w") as file:
        file.writelines(f"{it}\n" for it in lines)
    write_part(f"{folder}/stdout", "verifier", "".join(f"{it}\n" for it in answers))
    return answers


def main(words):
    if words[:1] == ["-f"] and len(words) == 2:
        with open(words[1], "w") as file:
            file.writelines(f"{encode(it).hex()}\n" for it in (*few_cases(), *first_few()))
    elif len(words) == 1:
        counts = counted(write(words[0]))
        print(" ".join(f"{it} {counts[it]}" for it in ["accepted", *(f"F{it}" for it in NAMES)]))
    else:
        sys.exit("verifier_cases.py FOLDER | -f FILE")


if __name__ == "__main__":
    main(sys.argv[1:])
