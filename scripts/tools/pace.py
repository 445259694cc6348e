#!/usr/bin/env python3
"""How fast this machine is: how many MB of a dump the plain C reader, bench/vcdmin, reads in a second of a processor.

`gate` prints it before and after, so that its minutes on two machines can be compared; by itself this prints it, too.
"""
import os
import resource
import subprocess
import tempfile

import stamps

DUMP = f"{stamps.ROOT}/crates/answers_reports/data/fifo_arb_bug1.vcd"
MEGABYTES, ROUNDS = 50, 5


def used():
    """Seconds of a processor of the programs that were run."""
    of = resource.getrusage(resource.RUSAGE_CHILDREN)
    return of.ru_utime + of.ru_stime


def seconds_of(words):
    before = used()
    subprocess.run(words, stdin=subprocess.DEVNULL, stdout=subprocess.DEVNULL, check=True)
    return used() - before


def pace():
    """MB a second of a processor, at best of some rounds; none if there is no C compiler."""
    with tempfile.TemporaryDirectory(prefix="svamon-pace-") as room:
        try:
            for name in ("repeat", "vcdmin"):
                subprocess.run(["cc", "-O2", "-o", f"{room}/{name}", f"{stamps.ROOT}/bench/{name}.c"], check=True)
            with open(f"{room}/dump.vcd", "wb") as it:
                subprocess.run([f"{room}/repeat", DUMP, str(MEGABYTES * 1_000_000)], stdout=it, check=True)
            least = min(seconds_of([f"{room}/vcdmin", "k", f"{room}/dump.vcd"]) for _ in range(ROUNDS))
            return os.path.getsize(f"{room}/dump.vcd") / 1e6 / least
        except (OSError, subprocess.CalledProcessError):
            return None


def said():
    """What the gate prints of it."""
    found = pace()
    return f"vcdmin reads {found:.0f} MB/s here" if found else "vcdmin can't be built here"


if __name__ == "__main__":
    print(said())
