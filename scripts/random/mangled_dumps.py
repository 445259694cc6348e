#!/usr/bin/env python3
"""Reads mangled dumps: scripts/random/mangled_dumps.py PROGRAM [DUMPS [SEED]]

PROGRAM is the built `answers_reports`. Small dumps whose lines are written in each way lose, repeat or get bytes. What
it prints of each, the first fault with its line or counts and values, must be what `scripts/models/dump_model.py` says.
"""
import os
import sys
import tempfile

sys.path.append(f"{os.path.dirname(os.path.realpath(__file__))}/../tools")

from line_rows import compare, mutants  # noqa: E402

BATCH = 5_000


def main(program, count="10000", seed="1"):
    left, number, wrong = int(count), int(seed), 0
    while left > 0:
        with tempfile.TemporaryDirectory() as folder:
            for text, wanted, found in compare(os.path.abspath(program), folder, mutants(min(left, BATCH), number)):
                wrong += 1
                print(f"{text[-90:]!r}: {found}, and not {wanted}", flush=True)
        left, number = left - BATCH, number + 1
    print(f"mangled_dumps: {count} dumps, {wrong} read otherwise than by the model")
    return 1 if wrong else 0


if __name__ == "__main__":
    sys.exit(main(*sys.argv[1:]))
