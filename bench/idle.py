#!/usr/bin/env python3
"""bench/idle.py FILE CODE [CLOCKS]: the dump in FILE with CLOCKS (9) more clocks after each of its own at which nothing
changes but the clock, whose code in the dump is CODE; to standard output.

The clock is one bit that rises once a period. After each step at which it falls come so many periods more.
"""
import sys


def steps(lines):
    """The body's steps: a time, and the lines of its changes."""
    time, changes = None, []
    for line in lines:
        if line.startswith("#"):
            if time is not None:
                yield time, changes
            time, changes = int(line[1:]), []
        else:
            changes.append(line)
    if time is not None:
        yield time, changes


def main():
    path, code = sys.argv[1], sys.argv[2]
    more = int(sys.argv[3]) if len(sys.argv) > 3 else 9
    with open(path) as it:
        head, body = it.read().split("$enddefinitions", 1)
    last, body = body.split("\n", 1)
    sys.stdout.write(f"{head}$enddefinitions{last}\n")
    found = list(steps(body.splitlines()))
    rises = [time for time, changes in found if f"1{code}" in changes]
    period = rises[1] - rises[0]
    offset = 0
    for time, changes in found:
        sys.stdout.write("\n".join([f"#{time + offset}", *changes, ""]))
        if f"0{code}" in changes and time > rises[0]:
            for _ in range(more):
                sys.stdout.write(f"#{time + offset + period // 2}\n1{code}\n#{time + offset + period}\n0{code}\n")
                offset += period


if __name__ == "__main__":
    main()
