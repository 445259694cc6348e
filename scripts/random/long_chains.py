#!/usr/bin/env python3
"""Texts with chains of many parts: scripts/random/long_chains.py SVAMON [PARTS]

By `##1`, `##0`, `and`, `or` and `intersect`, chains of up to PARTS parts (100,000) stand in a named
sequence that nothing uses, below `[*0]` in an antecedent, where they take no tick, and as a consequent,
where they weigh too much, or by `intersect`, where they weigh 1, have too many booleans. What `svamon
check` answers follows from that: the report of the rest, or Y9 at the chain's first token, or K1.
"""
import os
import subprocess
import sys
import tempfile
import time

TOP = os.path.dirname(os.path.dirname(os.path.dirname(os.path.abspath(__file__))))
DUMP = f"{TOP}/examples/fails_at_its_tick/dump.vcd"
REPORT = "\n".join([
    "svamon 1",
    "clocks 1",
    "monitor r holds 0 vacuous 0 fails 1 disabled 0 open 0",
    "fail r start 0 clock 0",
    "total holds 0 vacuous 0 fails 1 disabled 0 open 0",
    "",
])
HEAD = "r: assert property (@(posedge top.clk) "


def cases(sign, parts):
    """Texts with a chain of so many parts, each with the status, standard output and standard error that it must
    have."""
    chain = f" {sign} ".join(["top.y"] * parts)
    rule = f"{HEAD}top.x |-> top.y);\n"
    yield "not used", f"sequence s; {chain} endsequence\n{rule}", (1, REPORT, "")
    yield "no tick", f"{HEAD}({chain})[*0] or top.x |-> top.y);\n", (1, REPORT, "")
    front = f"{HEAD}top.x |-> "
    fault = "K1 TooManyAtoms" if sign == "intersect" else f"Y9 TooWide {len(front)}"
    yield "refused", f"{front}{chain});\n", (2, "", f"svamon: {fault}\n")


def check(svamon, path):
    """What `svamon check` answers on a text, and how many seconds it took."""
    began = time.time()
    ran = subprocess.run([svamon, "check", "--vcd", DUMP, "--sva", path], capture_output=True, text=True)
    return (ran.returncode, ran.stdout, ran.stderr), time.time() - began


def main(svamon, most):
    with tempfile.TemporaryDirectory() as room:
        path, parts = f"{room}/text.sva", 1_000
        while parts <= most:
            for sign in ("##1", "##0", "and", "or", "intersect"):
                for name, text, wanted in cases(sign, parts):
                    with open(path, "w") as it:
                        it.write(text)
                    answer, took = check(svamon, path)
                    if answer != wanted:
                        sys.exit(f"long_chains: {parts} parts by {sign}, {name}: {answer}")
                    print(f"{parts} parts by {sign}, {name}: {took:.2f} s", flush=True)
            parts *= 10


if __name__ == "__main__":
    if len(sys.argv) not in (2, 3):
        sys.exit("long_chains.py SVAMON [PARTS]")
    main(sys.argv[1], int(sys.argv[2]) if len(sys.argv) == 3 else 100_000)
