#!/usr/bin/env python3
"""Compares answers_bytecode with an independent machine on random programs and rows:
scripts/random/random_machine.py PROGRAM [CASES [ROWS [SEED]]]

PROGRAM is answers_bytecode. So many programs are made that are accepted (10,000), every other one of version 2 whose
antecedent may accept first, each with so many rows (100). The answers are those of machine_model.py: for each clock the
cost and what was decided, then the open starts. Then the same for each file with one byte changed of the smallest
monitor that an independent verifier accepts; no clock of it may spend more than its budget. It stops at the first that
differs, or where so many take too long.
"""
import collections
import os
import random
import subprocess
import sys

sys.path.insert(0, f"{os.path.dirname(os.path.realpath(__file__))}/../models")

import bytecode_cases
from machine_makers import some_first_program, some_program, some_rows
from machine_model import answer_of, case_of, run
from verifier_model import decode, encode, verdict

# How many programs one run of the program reads.
PART = 250
SECONDS = 120


def some_cases(rng, count, rows):
    """Random programs by name, with rows of their signals."""
    for at in range(count):
        program = some_first_program(rng) if at % 2 else some_program(rng)
        yield f"random_{at}", program, some_rows(rng, program, rows)


def byte_cases(rng, rows):
    """The programs that are accepted of all files with one other byte than the smallest, and than
    the smallest that accepts first."""
    for whole in (bytecode_cases.SMALL, bytecode_cases.FIRST):
        for at, byte in enumerate(whole):
            for other in set(range(256)) - {byte}:
                file = whole[:at] + bytes([other]) + whole[at + 1:]
                if bytecode_cases.answer(file) != "program":
                    continue
                program = decode(file)
                if verdict(program).startswith("accepted"):
                    yield f"byte_{at}_is_{other}", program, some_rows(rng, program, rows)


def texts_of(case):
    """What is asked of a case, its answer, and the verdicts in it."""
    name, program, rows = case
    clocks, machine = run(program, rows)
    assert all(spent <= program.budget for spent, _ in clocks)
    verdicts = collections.Counter(verdict for _, decided in clocks for _, verdict, _ in decided)
    asked = case_of(name, encode(program), rows)
    return asked, answer_of(name, clocks, machine.open_starts()), verdicts


def answers_of(oracle, asked):
    """What the program answers to each case."""
    text = "".join(f"{line}\n" for it in asked for line in it)
    try:
        ran = subprocess.run([oracle, "machine"], input=text, capture_output=True, text=True, timeout=SECONDS)
    except subprocess.TimeoutExpired:
        first, last = (it[0].removeprefix("case ") for it in (asked[0], asked[-1]))
        sys.exit(f"the cases {first} to {last} take over {SECONDS} s")
    if ran.returncode:
        sys.exit(f"status {ran.returncode}: {ran.stderr}")
    return [f"case {it}".splitlines() for it in ran.stdout.split("case ")[1:]]


def difference(asked, answer, wanted):
    """The first line that differs, with what was asked up to it."""
    for at, line in enumerate(wanted):
        said = answer[at] if at < len(answer) else "nothing"
        if said != line:
            return "\n".join([*asked[:at + 2], f"--- answers_bytecode at clock {at - 1}", said,
                              "--- by the model", line])
    return "\n".join([*asked, "--- answers_bytecode says more", *answer[len(wanted):]])


def compare(oracle, cases):
    """How often each verdict came, all answers being the same."""
    made = [texts_of(it) for it in cases]
    answers = answers_of(oracle, [asked for asked, _, _ in made])
    if len(answers) != len(made):
        sys.exit(f"{len(answers)} answers to {len(made)} cases")
    for (asked, wanted, _), answer in zip(made, answers):
        if answer != wanted:
            sys.exit(difference(asked, answer, wanted))
    return sum((verdicts for _, _, verdicts in made), collections.Counter())


def parts_of(cases):
    """The cases, so many at a time."""
    part = []
    for it in cases:
        part.append(it)
        if len(part) == PART:
            yield part
            part = []
    yield part


def compare_all(oracle, cases):
    count, verdicts = 0, collections.Counter()
    for part in parts_of(cases):
        verdicts += compare(oracle, part)
        count += len(part)
    listed = ", ".join(f"{number} {name}" for name, number in verdicts.most_common())
    return f"{count} programs, all the same ({listed})"


def main():
    if len(sys.argv) not in (2, 3, 4, 5):
        sys.exit(__doc__)
    given = sys.argv[2:] + ["10000", "100", "1"][len(sys.argv) - 2:]
    oracle, (cases, rows, seed) = os.path.abspath(sys.argv[1]), (int(it) for it in given)
    rng = random.Random(seed)
    print("random:", compare_all(oracle, some_cases(rng, cases, rows)), flush=True)
    print("one byte changed:", compare_all(oracle, byte_cases(rng, rows)), flush=True)


if __name__ == "__main__":
    main()
