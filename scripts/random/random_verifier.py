#!/usr/bin/env python3
"""Compares answers_bytecode with an independent verifier on random programs:
scripts/random/random_verifier.py PROGRAM [CASES [SEED]]

PROGRAM is answers_bytecode. So many programs are made that are accepted, in about half of them the
antecedent may accept first, and four mutants of each,
and where a changed byte still spells a program, that one too. The answers are those of
verifier_model.py: least limits and lives, or the first fault. It stops at the first that differs,
or where so many take too long.
"""
import collections
import os
import random
import subprocess
import sys
import tempfile

sys.path.insert(0, f"{os.path.dirname(os.path.realpath(__file__))}/../models")

from verifier_cases import byte_mutants, mutant
from verifier_makers import EITHER, random_program
from verifier_model import encode, verdict

# How many programs, with their mutants, one run of the program reads.
PART = 500
SECONDS = 120


def some_programs(rng, count):
    for _ in range(count):
        parts, depth = rng.randrange(1, 5), rng.choice((1, 2, 2, 3))
        whole = random_program(rng, parts, depth, accepts=rng.choice((EITHER[:1], EITHER)))
        yield whole
        yield from (mutant(rng, whole, 2) for _ in range(4))
        yield from byte_mutants(rng, whole, 2, 2)


def answers_of(oracle, programs, folder, named):
    with open(f"{folder}/verifier_cases.txt", "w") as file:
        file.writelines(f"{encode(it).hex()}\n" for it in programs)
    try:
        ran = subprocess.run(
            [oracle, "verifier"], cwd=folder, capture_output=True, text=True, timeout=SECONDS)
    except subprocess.TimeoutExpired:
        sys.exit(f"{named} take over {SECONDS} s")
    if ran.returncode:
        sys.exit(f"status {ran.returncode}: {ran.stderr}")
    return ran.stdout.splitlines()


def compare(oracle, programs, folder, named):
    """How often each answer came, all being the same."""
    answers = answers_of(oracle, programs, folder, named)
    if len(answers) != len(programs):
        sys.exit(f"{len(answers)} answers to {len(programs)} programs")
    for program, answer in zip(programs, answers):
        wanted = verdict(program)
        if answer != wanted:
            spelled = encode(program).hex()
            sys.exit(f"{spelled}\n--- answers_bytecode\n{answer}\n--- by the model\n{wanted}")
    return collections.Counter(it.split()[0] for it in answers)


def main():
    if len(sys.argv) not in (2, 3, 4):
        sys.exit(__doc__)
    oracle = os.path.abspath(sys.argv[1])
    cases, seed = (int(it) for it in (sys.argv[2:] + ["1000", "1"][len(sys.argv) - 2:]))
    rng, counts = random.Random(seed), collections.Counter()
    with tempfile.TemporaryDirectory() as folder:
        for done in range(0, cases, PART):
            programs = list(some_programs(rng, min(PART, cases - done)))
            last = min(cases, done + PART) - 1
            named = f"the programs {done} to {last} of seed {seed}, with their mutants,"
            counts += compare(oracle, programs, folder, named)
    listed = ", ".join(f"{count} {name}" for name, count in counts.most_common())
    print(f"{cases} programs and mutants of them, seed {seed}: all the same ({listed})")


if __name__ == "__main__":
    main()
