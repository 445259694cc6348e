#!/usr/bin/env python3
"""Makes cases for the program answers_bytecode with the answers of an independent machine.

`scripts/models/machine_cases.py FOLDER` writes FOLDER/data/machine_cases.txt and the part `machine` of FOLDER/stdout.
A case is a line `case NAME`, a line `program HEX` of a file of bytecode, and for each clock a line `row V V ..` of
the signals' values. Its answer is the line `case NAME`, for each clock a line
`cost T (START VERDICT CLOCK) ..` of the cost and what was decided, in the order of the
starts, and a line `open START ..` of the attempts that are live after the last clock.

Named cases come first, most of them with answers that were worked out by hand; then random ones,
and those files that are accepted of all with one byte of the smallest made another.
"""
import collections
import itertools
import os
import random
import sys

import bytecode_cases
from machine_makers import (
    accepting, always, columns, monitor, over_bits, placed, size_of, some_first_program,
    some_program, some_rows, step)
from machine_model import COMPARES, JOINS, PURE, REDUCES, SHIFTS, answer_of, case_of, most, run
from stored_parts import write_part
from verifier_cases import SMALL, changed, pooled
from verifier_model import MOST, decode, encode, verdict

ACCEPT, STOP, FIRST = ("Accept",), ("Stop",), ("AcceptFirst",)
WIDTHS = (1, 64, 127, 128)
RANDOM, CLOCKS, LARGEST = 400, 20, 40
# How many random programs of version 2.
RANDOM_FIRST = 150
# How many rows each file with a byte of the smallest made another runs over.
SWEPT_ROWS = 100


def named(name, program, rows, decided=None, costs=None, still=""):
    """A case, and what was worked out by hand: all that is decided, as START VERDICT CLOCK after
    commas, the cost of each clock, and the open starts."""
    return name, program, rows, (decided, costs, still)


# Sections of one antecedent or consequent, each atom being a boolean.

def delayed(first, last, atom):
    """An atom is 1 at a tick that comes so many ticks later, at the earliest and at the latest."""
    blocks = []
    for at in range(last):
        onward = ("Enter", at + 1)
        blocks.append([onward, STOP] if at < first else
                      [("Unless", atom, 2), ACCEPT, onward, STOP])
    return placed(1, *blocks, step(atom, ACCEPT))


def repeated_then(most_often, repeated, last, accept=ACCEPT):
    """An atom is 1 once or up to so often, and then another one is."""
    blocks = []
    for at in range(most_often):
        onward = [("Enter", at + 1)] if at + 1 < most_often else []
        blocks.append(step(repeated, *onward, ("Enter", most_often)))
    return placed(1, *blocks, step(last, accept))


def then(first, second):
    """An atom is 1, and another one at the next tick."""
    return placed(1, step(first, ("Enter", 1)), step(second, ACCEPT))


def then_any(first):
    """An atom is 1, and one more tick passes."""
    return placed(1, step(first, ("Enter", 1)), [ACCEPT, STOP])


def shared_range():
    return over_bits(2, accepting(0), delayed(1, 3, 1))


def worked_cases():
    yield named("one_tick_fails", SMALL, columns("1", "0"), "0 Fails 0", [13])
    yield named("one_tick_holds", SMALL, columns("1", "1"), "0 Holds 0", [14])
    yield named("one_tick_vacuous", SMALL, columns("0", "1"), "0 Vacuous 0", [9])
    yield named("two_positions", pooled(), columns("110", "010"),
                "0 Holds 1, 1 Vacuous 2, 2 Vacuous 2", [10, 19, 13])
    next_tick = over_bits(2, then_any(0), accepting(1))
    yield named("next_tick_holds", next_tick, columns("10", "01"), "0 Holds 1, 1 Vacuous 1")
    yield named("next_tick_is_open", next_tick, columns("01", "00"), "0 Vacuous 0", still="1")
    yield named("delay_range", shared_range(), columns("11000", "00010"),
                "2 Vacuous 2, 0 Holds 3, 1 Holds 3, 3 Vacuous 3, 4 Vacuous 4")
    ends = over_bits(3, repeated_then(3, 0, 1), accepting(2))
    yield named("several_ends", ends, columns("1110", "0111", "1101"),
                "0 Fails 2, 1 Fails 2, 2 Holds 3, 3 Vacuous 3")
    front = placed(3, step(0, ("Enter", 2)), step(1, ACCEPT), step(1, ACCEPT))
    yield named("empty_front", over_bits(3, front, accepting(2)), columns("0", "1", "0"),
                "0 Fails 0")


def long_cases():
    always_on = columns("1" * 1000, "0" * 1000)
    decided = ", ".join(f"{it} Fails {it + 3}" for it in range(997))
    yield named("full_pools", shared_range(), always_on, decided, still="997 998 999")
    chain = [[("Enter", it), STOP] for it in range(1, 127)]
    longest = placed(1, *chain, [ACCEPT, STOP])
    decided = ", ".join(f"{it} Holds {it + 252}" for it in range(2))
    yield named("longest_lives", over_bits(0, longest, longest), [[]] * 254, decided,
                still=" ".join(map(str, range(2, 254))))
    ends = placed(1, *([ACCEPT, *it] for it in chain), [ACCEPT, STOP])
    yield named("as_many_awaited_as_can_be", over_bits(0, ends, longest), [[]] * 254, decided,
                still=" ".join(map(str, range(2, 254))))


def disabled_cases():
    bits = over_bits(3, accepting(0), accepting(1), disable=2)
    yield named("disabled_at_once", bits, columns("1", "0", "1"), "0 Disabled 0", [8])
    later = over_bits(2, accepting(0), delayed(2, 2, 1), disable=2, atoms=3)
    later.sample = [*later.sample[:-1], ("Load", 3), ("SetAtom", 2), ("Halt",)]
    later.signals.append((1, b"stop"))
    later.budget += 2
    yield named("disabled_before_the_end", later, columns("110", "000", "010"),
                "0 Disabled 1, 1 Disabled 1, 2 Vacuous 2")
    yield named("obligations_end_too", later, columns("1100", "0000", "0100"),
                "0 Disabled 1, 1 Disabled 1, 2 Vacuous 2, 3 Vacuous 3")
    lone = over_bits(1, accepting(0), always(), disable=0)
    yield named("disabled_by_a_tested_atom", lone, columns("010"),
                "0 Vacuous 0, 1 Disabled 1, 2 Vacuous 2")


def block_cases():
    """What blocks do, each of one kind."""
    never = placed(0, [ACCEPT, STOP])
    nowhere = placed(0)
    yield named("no_start_of_antecedent", over_bits(1, never, always()), columns("11"),
                "0 Vacuous 0, 1 Vacuous 1", [5, 5])
    yield named("no_start_of_consequent", over_bits(1, always(), never), columns("11"),
                "0 Fails 0, 1 Fails 1", [8, 8])
    yield named("no_positions", over_bits(1, nowhere, nowhere), columns("1"), "0 Vacuous 0", [5])
    runs_on = placed(1, [ACCEPT, ("Enter", 1), STOP], [ACCEPT, STOP])
    yield named("attempt_goes_on_behind_accept", over_bits(1, runs_on, accepting(0)),
                columns("110"), "0 Holds 1, 1 Fails 2, 2 Fails 2")
    yield named("kept_with_positions_left", over_bits(1, accepting(0), runs_on), columns("10"),
                "0 Holds 0, 1 Vacuous 1", [12, 7])
    yield named("accepts_twice", over_bits(1, placed(3, [ACCEPT, ACCEPT, STOP], [ACCEPT, STOP]),
                                           accepting(0)), columns("10"), "0 Holds 0, 1 Fails 1")
    dies = placed(1, [("Enter", 1), STOP], [STOP])
    yield named("dies_without_accept", over_bits(1, dies, always()), columns("000"),
                "0 Vacuous 1, 1 Vacuous 2", still="2")
    twice = placed(3, [("Enter", 2), STOP], [("Enter", 2), ("Enter", 2), STOP], [ACCEPT, STOP])
    yield named("entered_thrice", over_bits(1, twice, always()), columns("000"),
                "0 Holds 1, 1 Holds 2", still="2")
    # Two ends at ticks that follow each other; of the second obligation nothing is left at once.
    later = placed(1, step(0, ("Enter", 1)), [("Enter", 2), STOP], [ACCEPT, STOP])
    ends = placed(1, step(1, ACCEPT, ("Enter", 1)), [ACCEPT, STOP])
    yield named("failed_attempt_leaves_obligations", over_bits(2, ends, later),
                columns("1000", "1000"), "0 Fails 1, 1 Vacuous 1, 2 Vacuous 2, 3 Vacuous 3",
                [15, 19, 12, 9])
    soon = placed(1, step(0, ("Enter", 1)), [ACCEPT, STOP])
    yield named("kept_and_broken_at_one_clock", over_bits(2, ends, soon), columns("100", "100"),
                "0 Fails 1, 1 Vacuous 1, 2 Vacuous 2", [15, 19, 9])
    roomy = changed(pooled(), **{it: MOST[it] for it in
                                 ("history", "stack", "attempts", "obligations", "budget")})
    yield named("limits_at_the_most", roomy, columns("110", "010"),
                "0 Holds 1, 1 Vacuous 2, 2 Vacuous 2", [10, 19, 13])


def first_cases():
    """Programs of version 2, whose antecedent accepts first."""
    small = changed(SMALL, antecedent=accepting(0, FIRST))
    for value, verdict, cost in (("1", "Holds", 14), ("0", "Fails", 13)):
        yield named(f"first_of_one_tick_{verdict.lower()}", small, columns("1", value),
                    f"0 {verdict} 0", [cost])
    ends = over_bits(3, repeated_then(3, 0, 1, FIRST), accepting(2))
    assert (ends.attempts, ends.obligations) == (4, 1)
    yield named("first_of_several_ends", ends, columns("1110", "0111", "1101"),
                "0 Holds 1, 1 Fails 2, 2 Holds 3, 3 Vacuous 3")
    # Position 0 accepts, and the block of position 1 runs none the less; what it enters is dropped.
    others = placed(3, step(0, FIRST), [("Enter", 2), STOP], [FIRST, STOP])
    yield named("other_blocks_run", over_bits(1, others, accepting(0)), columns("100"),
                "0 Holds 0, 1 Fails 2", [14, 9, 16], still="2")
    # What was entered before is dropped too, and what the block itself enters after it.
    before = placed(3, [("Enter", 2), STOP], step(0, FIRST, ("Enter", 2)), [ACCEPT, STOP])
    yield named("entered_before_is_dropped", over_bits(1, before, always()), columns("101"),
                "0 Holds 0, 1 Holds 2, 2 Holds 2")
    # The attempt has no position, and waits for its obligation.
    waits = over_bits(2, accepting(0, FIRST), delayed(2, 2, 1))
    yield named("awaited_is_kept", waits, columns("1000", "0010"),
                "1 Vacuous 1, 0 Holds 2, 2 Vacuous 2, 3 Vacuous 3")
    yield named("awaited_is_broken", waits, columns("1000", "0000"),
                "1 Vacuous 1, 0 Fails 2, 2 Vacuous 2, 3 Vacuous 3")
    # An Accept, on which the attempt goes on, and an AcceptFirst at the next tick.
    both = placed(1, [ACCEPT, ("Enter", 1), STOP], [FIRST, ("Enter", 2), STOP], [ACCEPT, STOP])
    yield named("accepts_and_then_first", over_bits(1, both, accepting(0)), columns("1101"),
                "0 Holds 1, 1 Fails 2, 2 Fails 2", still="3")
    twice = placed(3, [FIRST, FIRST, STOP], [ACCEPT, ("Enter", 2), STOP], [ACCEPT, STOP])
    yield named("accepts_first_twice", over_bits(1, twice, accepting(0)), columns("10"),
                "0 Holds 0, 1 Fails 1")


# Sample code: a boolean of it decides each attempt at its own clock.

def judged(widths, code, **fields):
    """Each clock holds where atom 0 is 1, and fails elsewhere."""
    return monitor(widths, code, always(), accepting(0), **{"atoms": 1} | fields)


def compared_with(widths, code, width, **fields):
    """Code that leaves a value, which is to equal the last signal."""
    tail = [("Load", len(widths) + 1), ("Eq",), ("SetAtom", 0)]
    return judged([*widths, width], [*code, *tail], **fields)


def told(*bits):
    """What is decided where these clocks hold and the others fail."""
    return ", ".join(f"{at} {'Holds' if bit else 'Fails'} {at}" for at, bit in enumerate(bits))


def sample_cases():
    """How code goes on, and what stands after it."""
    set_it = ("SetAtom", 0)
    jump = [("Load", 1), ("JumpIfZero", 3), ("Halt",), ("Load", 0), set_it]
    yield named("halts_in_the_middle", judged([1], jump), columns("010"), told(1, 0, 1))
    forked = [("Load", 1), ("JumpIfZero", 4), ("Load", 2), ("Jump", 6), ("Load", 2), ("Not",),
              set_it]
    yield named("both_ways", judged([1, 1], forked), columns("0011", "0101"), told(1, 0, 0, 1),
                [14, 13, 13, 14])
    twice = [("Load", 1), set_it, ("Load", 2), set_it]
    yield named("last_atom_stands", judged([1, 1], twice), columns("0011", "0101"),
                told(0, 1, 0, 1))
    left = [("Load", 0), ("Load", 1), ("Load", 0), ("Load", 1), set_it]
    yield named("operands_left_at_the_end", judged([1], left), columns("011"), told(0, 1, 1))
    yield named("atom_is_never_set", judged([1], []), columns("11"), told(0, 0))
    once = [("Load", 1), ("JumpIfZero", 4), ("Load", 0), set_it]
    yield named("atoms_begin_at_zero", judged([1], once), columns("1010"), told(1, 0, 1, 0))
    deep = [("Load", 1)] * 1024 + [("Xor",)] * 1023 + [set_it]
    yield named("deepest_stack", judged([1], deep), columns("01"), told(0, 0), [2056, 2056])
    many = [it for at in range(127) for it in (("Load", at + 1), ("SetAtom", at))]
    last = monitor([1] * 127, many, always(), accepting(126), atoms=127)
    yield named("last_of_the_atoms", last, [[0] * 126 + [1], [1] * 126 + [0]], told(1, 0))


def history_cases():
    past = [("Past", 1, 2), ("Push", 8, 0), ("Eq",), ("SetAtom", 0)]
    yield named("before_the_first", judged([8], past), [[5], [6], [7]], told(1, 1, 0))
    yield named("constant_before_the_first", judged([], [("Past", 0, 1), ("SetAtom", 0)]),
                [[]] * 3, told(0, 1, 1))
    for ago in (1, 2, 3, 64):
        program = compared_with([8], [("Past", 1, ago)], 8)
        rows = [[it + 1, max(it + 1 - ago, 0)] for it in range(140)]
        yield named(f"past_{ago}", program, rows, told(*[1] * 140))
    roomy = compared_with([8], [("Past", 1, 2)], 8, history=5)
    rows = [[it + 1, max(it - 1, 0)] for it in range(20)]
    yield named("past_within_a_longer_history", roomy, rows, told(*[1] * 20))
    own = compared_with([], [("Past", 2, 1), ("Load", 2), ("Push", 8, 1), ("Add",), ("Store", 0)],
                        8, counters=[8])
    rows = [[max(it - 1, 0)] for it in range(10)]
    yield named("past_of_a_counter", own, rows, told(*[1] * 10))
    yield named("longest_history", compared_with([8], [("Past", 1, 4096)], 8), [[7, 0]] * 10,
                told(*[1] * 10))


def count_up(width, *behind):
    """Code that adds 1 to counter 0, after one signal, and reads it."""
    return [("Load", 2), ("Push", width, 1), ("AddSat",), ("Store", 0), *behind, ("Load", 2)]


def counter_cases():
    sets = lambda *values: [[it] for it in values]
    counted = compared_with([], count_up(2), 2, counters=[2])
    yield named("counter_held_at_its_most", counted, sets(0, 1, 2, 3, 3, 0), told(1, 1, 1, 1, 1, 0))
    twice = count_up(8, ("Push", 8, 9), ("Store", 0))
    yield named("last_store_stands", compared_with([], twice, 8, counters=[8]), sets(0, 9, 9),
                told(1, 1, 1))
    skips = [("Load", 1), ("JumpIfZero", 6), ("Load", 3), ("Push", 8, 3), ("Add",), ("Store", 0),
             ("Load", 3)]
    yield named("counter_without_a_store_is_kept", compared_with([1], skips, 8, counters=[8]),
                [[1, 0], [0, 3], [0, 3], [1, 3], [0, 6]], told(1, 1, 1, 1, 1))
    swapped = [("Load", 3), ("Not",), ("Store", 0), ("Load", 2), ("Store", 1), ("Load", 2),
               ("Load", 3), ("Concat",)]
    yield named("counters_read_what_stood", compared_with([], swapped, 2, counters=[1, 1]),
                sets(0, 2, 3, 1, 0), told(1, 1, 1, 1, 1))
    yield named("counter_never_stored", compared_with([], [("Load", 2)], 64, counters=[64]),
                sets(0, 0, 1), told(1, 1, 0))
    for width in (64, 127, 128):
        down = [("Load", 2), ("Push", width, 1), ("Sub",), ("Store", 0), ("Load", 2)]
        program = compared_with([], down, width, counters=[width])
        yield named(f"counter_of_{width}_bits", program, sets(0, most(width), most(width) - 1, 0),
                    told(1, 1, 1, 0))
    code = [("Load", 1), ("SetAtom", 1), ("Load", 3), ("Push", 8, 1), ("Add",), ("Store", 0),
            ("Load", 3)]
    program = compared_with([1], code, 8, counters=[8], atoms=2, disable=1)
    yield named("store_of_a_disabled_clock_stands", program, [[0, 0], [1, 0], [0, 2], [0, 3]],
                "0 Holds 0, 1 Disabled 1, 2 Holds 2, 3 Holds 3")
    late = [("Load", 1), ("SetAtom", 1), ("Past", 2, 1), ("SetAtom", 0)]
    program = judged([1, 1], late, atoms=2, disable=1)
    yield named("row_of_a_disabled_clock_stays", program, columns("0100", "0100"),
                "0 Fails 0, 1 Disabled 1, 2 Holds 2, 3 Fails 3")


# Each instruction that makes a value, over operands at the edges of their widths.

def edges(width):
    return sorted({0, 1, 1 << width - 1, most(width) - 1, most(width)})


def made_by(instr, operands):
    """The width and the value of what an instruction makes of operands of width and value."""
    name, *args = instr
    return PURE[name](name, args, *operands)


def edge_case(instr, widths, values):
    """An instruction over the values, each third time beside a result that is wrong."""
    rows, bits, width = [], [], 1
    for at, operands in enumerate(values):
        width, value = made_by(instr, list(zip(widths, operands)))
        wrong = at % 3 == 1
        rows.append([*operands, value ^ 1 if wrong else value])
        bits.append(not wrong)
    code = [*(("Load", at + 1) for at in range(len(widths))), instr]
    name = "_".join(map(str, [*instr, "of", *widths]))
    return named(name, compared_with(widths, code, width), rows, told(*bits))


def counts(width, by):
    """Counts that shift a value by nothing, by one, nearly out, out and as far as they can."""
    return sorted({it for it in (0, 1, width - 1, width, width + 1, most(by)) if it <= most(by)})


def edge_cases():
    for width in WIDTHS:
        pairs = list(itertools.product(edges(width), repeat=2))
        for name in (*JOINS, *COMPARES):
            yield edge_case((name,), [width] * 2, pairs)
        for name, by in itertools.product(SHIFTS, (1, 8, 128)):
            moved = list(itertools.product((1, most(width)), counts(width, by)))
            yield edge_case((name,), [width, by], moved)
        for name in (*REDUCES, "Not"):
            yield edge_case((name,), [width], [(it,) for it in edges(width)])
        for wide in (it for it in (width, width + 1, 127, 128) if width <= it <= 128):
            yield edge_case(("Zext", wide), [width], [(it,) for it in edges(width)])
        for high, low in {(0, 0), (width - 1, 0), (width - 1, width // 2), (width - 1, width - 1)}:
            values = [(it,) for it in edges(width)]
            yield edge_case(("Slice", high, low), [width], values)
        chosen = [(bit, *it) for bit in (0, 1) for it in pairs[:5]]
        yield edge_case(("Mux",), [1, width, width], chosen)
        yield edge_case(("Push", width, most(width)), [], [()] * 2)
    for widths in ((1, 1), (1, 127), (127, 1), (64, 64), (1, 63), (64, 63)):
        pairs = list(itertools.product(*map(edges, widths)))
        yield edge_case(("Concat",), widths, pairs)


def check_values():
    """Values that were worked out by hand."""
    full = most(128)
    for instr, operands, value in (
            (("Add",), ((128, full), (128, 1)), 0),
            (("Add",), ((64, most(64)), (64, 2)), 1),
            (("AddSat",), ((128, full), (128, 1)), full),
            (("AddSat",), ((1, 1), (1, 1)), 1),
            (("Sub",), ((128, 0), (128, 1)), full),
            (("Sub",), ((8, 3), (8, 5)), 254),
            (("SubSat",), ((128, 0), (128, 1)), 0),
            (("SubSat",), ((8, 5), (8, 3)), 2),
            (("Eq",), ((127, 5), (127, 5)), 1),
            (("Lt",), ((8, 3), (8, 5)), 1),
            (("Lt",), ((8, 5), (8, 3)), 0),
            (("Lt",), ((8, 5), (8, 5)), 0),
            (("Shl",), ((8, 0x81), (8, 1)), 2),
            (("Shl",), ((128, 1), (8, 127)), 1 << 127),
            (("Shl",), ((128, 1), (8, 128)), 0),
            (("Shr",), ((8, 0x81), (8, 1)), 0x40),
            (("Shr",), ((64, most(64)), (128, 1 << 100)), 0),
            (("Not",), ((127, 0),), most(127)),
            (("RedAnd",), ((64, most(64)),), 1),
            (("RedAnd",), ((65, most(64)),), 0),
            (("RedOr",), ((128, 0),), 0),
            (("RedXor",), ((8, 0xB0),), 1),
            (("RedXor",), ((8, 0xB1),), 0),
            (("Onehot",), ((128, 1 << 127),), 1),
            (("Onehot",), ((128, 0),), 0),
            (("Onehot0",), ((128, 0),), 1),
            (("Onehot0",), ((128, 3),), 0),
            (("Concat",), ((64, 1), (64, 2)), (1 << 64) + 2),
            (("Zext", 128), ((64, most(64)),), most(64)),
            (("Slice", 7, 4), ((8, 0xA5),), 0xA),
            (("Slice", 127, 64), ((128, 7 << 64),), 7),
            (("Mux",), ((1, 1), (8, 3), (8, 5)), 3),
            (("Mux",), ((1, 0), (8, 3), (8, 5)), 5)):
        assert made_by(instr, operands)[1] == value, (instr, operands)


def small_random_cases():
    """Random programs that are short, each part of at most so many instructions."""
    rng, made = random.Random(1), 0
    while made < RANDOM:
        program = some_program(rng)
        if size_of(program) <= LARGEST:
            yield f"random_{made}", program, some_rows(rng, program, CLOCKS), (None, None, None)
            made += 1


def small_first_cases():
    """The same of version 2."""
    rng, made = random.Random(2), 0
    while made < RANDOM_FIRST:
        program = some_first_program(rng)
        if size_of(program) <= LARGEST and any(FIRST in it for it in program.antecedent.blocks):
            yield f"random_first_{made}", program, some_rows(rng, program, CLOCKS), (None, None, None)
            made += 1


def swept_files():
    """The smallest file with each byte made 0, 255 and one more, by name."""
    whole = bytecode_cases.SMALL
    for at, byte in enumerate(whole):
        for other in sorted({0, 255, (byte + 1) % 256} - {byte}):
            yield f"byte_{at}_is_{other}", whole[:at] + bytes([other]) + whole[at + 1:]


def swept_cases():
    """Those of them that are accepted, none of which may spend more than its budget."""
    rng = random.Random(3)
    for name, file in swept_files():
        if bytecode_cases.answer(file) != "program":
            continue
        program = decode(file)
        if verdict(program).startswith("accepted"):
            rows = some_rows(rng, program, SWEPT_ROWS)
            assert all(spent <= program.budget for spent, _ in run(program, rows)[0])
            yield name, program, rows, (None, None, None)


def fixed_cases():
    yield from itertools.chain(worked_cases(), long_cases(), disabled_cases(), block_cases())
    yield from itertools.chain(sample_cases(), history_cases(), counter_cases(), edge_cases())


def written(decided):
    return ", ".join("%d %s %d" % it for it in decided)


def check(name, clocks, starts, hand):
    """What was worked out by hand is what the machine says."""
    decided, costs, still = hand
    if decided is not None:
        said = written([it for _, clock in clocks for it in clock])
        assert said == decided, (name, said, decided)
        assert " ".join(map(str, starts)) == still, (name, starts)
    if costs is not None:
        assert [spent for spent, _ in clocks] == costs, (name, clocks)


def answered(case, version):
    """The lines of a case, those of its answer, and the machine after its last clock."""
    name, program, rows, hand = case
    assert verdict(program).startswith("accepted"), (name, verdict(program))
    clocks, machine = run(program, rows)
    check(name, clocks, machine.open_starts(), hand)
    answer = answer_of(name, clocks, machine.open_starts())
    return case_of(name, encode(program, version), rows), answer, machine


def full_pools(machine):
    """Whether as many attempts and obligations were live as declared, and more than one."""
    declared = machine.program.attempts, machine.program.obligations
    return [peak == most_live > 1 for peak, most_live in zip(machine.peaks, declared)]


def check_spread(answers, machines):
    """All verdicts are there, and pools that are full."""
    counted = collections.Counter(
        word for it in answers for word in it.split() if word.isalpha())
    assert all(counted[it] >= 300 for it in ("Holds", "Vacuous", "Fails", "Disabled")), counted
    full = [sum(it) for it in zip(*(full_pools(machine) for machine in machines))]
    assert min(full) >= 20, full
    return counted, full


def write(folder):
    os.makedirs(f"{folder}/data", exist_ok=True)
    lines, answers, machines = [], [], []
    firsts = itertools.chain(fixed_cases(), small_random_cases(), swept_cases())
    seconds = itertools.chain(first_cases(), small_first_cases())
    for case, version in [*((it, 1) for it in firsts), *((it, 2) for it in seconds)]:
        asked, answer, machine = answered(case, version)
        lines += asked
        answers += answer
        machines.append(machine)
    with open(f"{folder}/data/machine_cases.txt", "w") as file:
        file.writelines(f"{it}\n" for it in lines)
    write_part(f"{folder}/stdout", "machine", "".join(f"{it}\n" for it in answers))
    return len(machines), len(answers), check_spread(answers, machines)


def main(words):
    if len(words) != 1:
        sys.exit("machine_cases.py FOLDER")
    check_values()
    cases, lines, (counted, full) = write(words[0])
    verdicts = ", ".join(f"{counted[it]} {it}" for it in ("Holds", "Vacuous", "Fails", "Disabled"))
    print(f"{cases} cases, {lines} lines: {verdicts}; full pools {full[0]} and {full[1]}")


if __name__ == "__main__":
    main(sys.argv[1:])
