#!/usr/bin/env python3
"""Whether two programs say the same of all examples: scripts/tools/verify_quick.py QUICK PROVED

Each judges and explains each example's text, with its port file if there is one, and its team's file, by `check` and by
`explain`. What they write, on standard output and on standard error, and the status are compared byte for byte. It
prints which builds they are and how many runs were the same; the status is 1 if one wasn't.
"""
import os
import subprocess
import sys

import stamps

EXAMPLES = f"{stamps.ROOT}/crates/demo/data"
COMMANDS = ("check", "explain")
# The examples with a file as a team writes it, and what is taken for `$` in its ranges.
TEAMS = (("handshake", 120), ("outstanding", 60), ("fifo_arb", 60))


def texts_of(name):
    """The words of an example's dump and text, and of its dump and team's file."""
    folder = f"{EXAMPLES}/{name}"
    ports = ["--axi", f"{folder}/ports.txt"] if os.path.exists(f"{folder}/ports.txt") else []
    yield ["--vcd", f"{folder}/dump.vcd", "--sva", f"{folder}/assertion.sva", *ports]
    for team, bound in TEAMS:
        if team == name:
            yield ["--vcd", f"{folder}/dump.vcd", "--sv", f"{folder}/checks.sv", "--scope", "tb", "--bound", str(bound)]


def jobs():
    for name in sorted(os.listdir(EXAMPLES)):
        if os.path.isdir(f"{EXAMPLES}/{name}"):
            yield from ([command, *words] for words in texts_of(name) for command in COMMANDS)


def said(program, words):
    ran = subprocess.run([program, *words], stdin=subprocess.DEVNULL, capture_output=True)
    return ran.returncode, ran.stdout, ran.stderr


def build_of(program):
    """The line of `--version` that says which build a program is."""
    if not os.path.isfile(program):
        sys.exit(f"verify-quick: there is no {program}")
    return said(program, ["--version"])[1].decode().partition("\n")[2].strip()


def main(quick, proved):
    for program in quick, proved:
        print(f"verify-quick: {program}: {build_of(program)}", flush=True)
    if not build_of(proved).startswith(("proved", "built in place")):
        sys.exit(f"verify-quick: {proved} is no proved build: make svamon or make install makes one")
    wanted = list(jobs())
    differ = [words for words in wanted if said(quick, words) != said(proved, words)]
    for words in differ:
        print(f"verify-quick: they differ: svamon {' '.join(words)}")
    print(f"verify-quick: {len(wanted) - len(differ)} runs the same, {len(differ)} not")
    return 1 if differ else 0


if __name__ == "__main__":
    if len(sys.argv) != 3:
        sys.exit("verify_quick.py QUICK PROVED")
    sys.exit(main(*sys.argv[1:]))
