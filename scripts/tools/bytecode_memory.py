#!/usr/bin/env python3
"""Looks at what answers_bytecode asks of memory: scripts/tools/bytecode_memory.py PROGRAM

Each allocation is refused in turn while it reads, copies and writes a few programs, by
scripts/tools/fail_alloc. And a file that declares as much as a count can is to take no more memory than
one of its length that declares nothing, but for a few bytes of its answer.
"""
import os
import subprocess
import sys
import tempfile

HERE = os.path.dirname(os.path.realpath(__file__))
sys.path.insert(0, f"{HERE}/../models")

import bytecode_cases as cases

SECONDS = 600
# How much more a file may take for what it declares, in bytes.
ROOM = 64


def run_in(folder, words, **more):
    environment = os.environ | more
    try:
        return subprocess.run(
            words, cwd=folder, env=environment, capture_output=True, text=True, timeout=SECONDS)
    except subprocess.TimeoutExpired:
        sys.exit(f"{' '.join(words)} over {folder}/bytecode_cases.txt takes over {SECONDS} s")


def refuse_each(program, folder):
    cases.write_listed(cases.few_cases(), f"{folder}/bytecode_cases.txt")
    ran = run_in(folder, [f"{HERE}/fail_alloc", "-l", "1", program, "bytecode"])
    print(ran.stdout + ran.stderr, end="")
    return ran.returncode == 0


def asked(program, folder, file):
    """The largest request, and the sum of all, of a run over one file."""
    cases.write_listed([file], f"{folder}/bytecode_cases.txt")
    more = {"LD_PRELOAD": f"{folder}/fail_alloc.so", "COUNT_ALLOC": f"{folder}/counts"}
    ran = run_in(folder, [program, "bytecode"], **more)
    if (ran.stdout, ran.returncode) != (cases.listed(file) + "\n", 0):
        written = ran.stdout + ran.stderr
        sys.exit(f"status {ran.returncode}, another answer to {file.hex()}: {written}")
    with open(f"{folder}/counts") as counts:
        return [int(word) for word in counts.read().split()[:2]]


def compare_declared(program, folder):
    library = ["-o", f"{folder}/fail_alloc.so", f"{HERE}/fail_alloc.c", "-ldl"]
    subprocess.run(["cc", "-O2", "-shared", "-fPIC", *library], check=True)
    worst = 0
    for declared, none in cases.declared_counts():
        most, least = asked(program, folder, declared), asked(program, folder, none)
        more = max(it - other for it, other in zip(most, least))
        if more > ROOM:
            print(f"{declared.hex()} takes {more} bytes more than with a count of 0")
            return False
        worst = max(worst, *most)
    print(f"counts of 65,535 take no room: at most {worst} bytes in all")
    return True


def main():
    if len(sys.argv) != 2:
        sys.exit(__doc__.splitlines()[0])
    program = os.path.abspath(sys.argv[1])
    with tempfile.TemporaryDirectory() as folder:
        return 0 if refuse_each(program, folder) and compare_declared(program, folder) else 1


if __name__ == "__main__":
    sys.exit(main())
