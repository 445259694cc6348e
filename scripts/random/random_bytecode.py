#!/usr/bin/env python3
"""Compares answers_bytecode with an independent reader on random mutants:
scripts/random/random_bytecode.py PROGRAM [MUTANTS [SEED]]

PROGRAM is answers_bytecode. So many mutants are made of the smallest program, and as many of the
one with each instruction, in version 1 and in version 2: bytes are replaced, removed and put in,
and bits turned. The answers
are those of bytecode_cases.py: all that a program holds, or its first fault. It stops at the
first that differs, or where so many take too long.
"""
import os
import random
import subprocess
import sys
import tempfile

sys.path.insert(0, f"{os.path.dirname(os.path.realpath(__file__))}/../models")

import bytecode_cases as cases

# How many mutants one run of the program reads.
PART = 5000
SECONDS = 120


def answers_of(program, files, folder, named):
    cases.write_listed(files, f"{folder}/bytecode_cases.txt")
    try:
        ran = subprocess.run(
            [program, "bytecode"], cwd=folder, capture_output=True, text=True, timeout=SECONDS)
    except subprocess.TimeoutExpired:
        sys.exit(f"{named} take over {SECONDS} s")
    if ran.returncode:
        sys.exit(f"status {ran.returncode}: {ran.stderr}")
    return ran.stdout.splitlines()


def first_difference(files, answers):
    """The first file with another answer, and how many are programs."""
    programs = 0
    for file, answer in zip(files, answers):
        wanted = cases.listed(file)
        if answer != wanted:
            return f"{file.hex()}\n--- answers_bytecode\n{answer}\n--- by the reader\n{wanted}", 0
        programs += wanted.startswith("Program")
    return None, programs


def compare(program, whole, mutants, seed, rng, folder):
    """How many of so many mutants are programs, all answers being the same."""
    programs = 0
    for done in range(0, mutants, PART):
        files = list(cases.mutants(whole, rng, min(PART, mutants - done)))
        named = f"mutants {done} to {done + len(files) - 1} of {len(whole)} bytes, seed {seed},"
        answers = answers_of(program, files, folder, named)
        if len(answers) != len(files):
            sys.exit(f"{len(answers)} answers to {len(files)} files")
        difference, found = first_difference(files, answers)
        if difference:
            sys.exit(f"a mutant differs:\n{difference}")
        programs += found
    return programs


def main():
    if len(sys.argv) not in (2, 3, 4):
        sys.exit(__doc__)
    program = os.path.abspath(sys.argv[1])
    mutants, seed = (int(it) for it in (sys.argv[2:] + ["100000", "1"][len(sys.argv) - 2:]))
    rng = random.Random(seed)
    with tempfile.TemporaryDirectory() as folder:
        every = cases.every_instruction()
        for whole in (cases.SMALL, every, cases.FIRST, cases.every_instruction(2)):
            programs = compare(program, whole, mutants, seed, rng, folder)
            print(f"{mutants} mutants of {len(whole)} bytes of version {whole[4]}, seed {seed},"
                  f" {programs} of them programs: all the same", flush=True)


if __name__ == "__main__":
    main()
