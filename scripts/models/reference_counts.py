#!/usr/bin/env python3
"""Counts what is in dumps, by the independent reader of reference_report.py: the paths that can be bound, the steps
with the one at time 0, the changes, and the ticks of a clock; and says values of some paths at the first two ticks, the
middle one and the last. It writes the part `dumps` of the stored output of crates/answers_reports, from the traces.txt
there, whose lines are DUMP CLOCK PATH...

    cd crates/answers_reports/data && ../../../scripts/models/reference_counts.py traces.txt ../stdout
"""
import re
import sys

from reference_report import read_dump, sampled
from stored_parts import write_part

DIGITS = re.compile('[bB][01xXzZ]+')


def first_foreign_digit(text):
    """The line of the first vector in the body with a digit that is none of Verilog's, or 0."""
    inside = False
    for number, line in enumerate(text.split('\n'), 1):
        inside = inside or '$enddefinitions' in line
        is_bad = line[:1] in tuple('uUwWlLhH-')
        if inside and (is_bad or line[:1] in ('b', 'B') and not DIGITS.fullmatch(line.split()[0])):
            return number
    return 0


def lines_of(dump, clock, names):
    text = open(dump, errors='replace').read()
    line = first_foreign_digit(text)
    if line:
        yield f'{dump} V1 BadToken {line}'
        return
    paths, steps = read_dump(text)
    bindable = [p for p, (kind, size, _) in paths.items() if kind not in ('real', 'realtime', 'string', 'event')
                and 1 <= size <= 128]
    changes = sum(len(changed) for _, changed in steps)
    rows = sampled(paths, steps, clock, names)
    yield f'{dump} names {len(bindable)} steps {len(steps)} changes {changes} ticks {len(rows)}'
    for tick in sorted({t for t in (0, 1, len(rows) // 2, len(rows) - 1) if 0 <= t < len(rows)}):
        yield f'{dump} tick {tick} ' + ' '.join(f'{name} {value}' for name, value in zip(names, rows[tick]))


def main(traces, stored):
    lines = []
    for line in open(traces):
        dump, clock, *names = line.split()
        lines += lines_of(dump, clock, names)
    write_part(stored, 'dumps', ''.join(f'{it}\n' for it in lines))


if __name__ == '__main__':
    main(*sys.argv[1:])
