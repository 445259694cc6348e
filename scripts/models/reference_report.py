#!/usr/bin/env python3
"""An independent reading of a dump and one assertion of the form

    [NAME:] assert property (@(posedge path) path |-> path);

It shares nothing with svamon: it keeps every value of every clock edge and looks at each attempt from the words of the
standard. It writes the report that svamon must write. judge_examples.py does the same for whole texts;
reference_counts.py takes the reader from here.

    scripts/models/reference_report.py DUMP ASSERTION > REPORT
"""
import re
import sys


def value(digits, size):
    """The digits as a number of that size: extended on the left, cut on the left, x and z as 0."""
    pad = '0' if digits[0] in '01' else digits[0]
    digits = (pad * max(0, size - len(digits)) + digits)[-size:] if size else '0'
    return int(''.join('1' if d == '1' else '0' for d in digits) or '0', 2)


def read_dump(text):
    tokens = text.split()
    paths, scopes, at = {}, [], 0
    while tokens[at] != '$enddefinitions':
        end = tokens.index('$end', at)
        inside = tokens[at + 1:end]
        if tokens[at] == '$scope':
            scopes.append(inside[1])
        elif tokens[at] == '$upscope' and scopes:
            scopes.pop()
        elif tokens[at] == '$var':
            name = re.sub(r'\[[^\[\]]*:[^\[\]]*\]$', '', ''.join(inside[3:]))
            paths.setdefault('.'.join(scopes + [name]), (inside[0], int(inside[1]), inside[2]))
        at = end + 1
    at = tokens.index('$end', at) + 1
    steps, time = [(0, [])], 0
    while at < len(tokens):
        token = tokens[at]
        if token[0] == '#':
            if int(token[1:]) != time:
                time = int(token[1:])
                steps.append((time, []))
        elif token[0] in 'bB':
            at += 1
            steps[-1][1].append((tokens[at], token[1:]))
        elif token[0] in 'rRsS':
            at += 1
        elif token[0] in '01xXzZ':
            steps[-1][1].append((token[1:], token[0]))
        elif token not in ('$dumpvars', '$dumpall', '$dumpon', '$dumpoff', '$end'):
            at = tokens.index('$end', at)
        at += 1
    return paths, steps


def sampled(paths, steps, clock, names):
    """The rows of the names, sampled before each rising edge of the clock."""
    now, rows = {}, []
    code = paths[clock][2]
    for _, changes in steps:
        before = now.get(code)
        low = before is not None and value(before, 1) == 0
        row = [value(now[paths[n][2]], paths[n][1]) if paths[n][2] in now else 0 for n in names]
        for changed, digits in changes:
            now[changed] = digits
        if low and value(now[code], 1) == 1:
            rows.append(row)
    return rows


def main(dump, assertion):
    paths, steps = read_dump(open(dump).read())
    m = re.match(r'\s*(?:(\w+)\s*:)?\s*assert\s+property\s*\(\s*@\s*\(\s*posedge\s+([\w.$]+)\s*\)'
                 r'\s*([\w.$]+)\s*(\|->|\|=>)\s*([\w.$]+)\s*\)\s*;\s*$', open(assertion).read())
    name, clock, first, arrow, second = m.groups()
    rows = sampled(paths, steps, clock, [first, second])
    counts = {'holds': 0, 'vacuous': 0, 'fails': 0, 'disabled': 0, 'open': 0}
    fails = []
    for start, row in enumerate(rows):
        at = start if arrow == '|->' else start + 1
        if row[0] == 0:
            counts['vacuous'] += 1
        elif at >= len(rows):
            counts['open'] += 1
        elif rows[at][1] != 0:
            counts['holds'] += 1
        else:
            counts['fails'] += 1
            fails.append((at, start))
    name = name or 'assert_1'
    line = ' '.join(f'{k} {v}' for k, v in counts.items())
    print(f'svamon 1\nclocks {len(rows)}\nmonitor {name} {line}')
    for clock_number, start in sorted(fails):
        print(f'fail {name} start {start} clock {clock_number}')
    print(f'total {line}')


if __name__ == '__main__':
    main(*sys.argv[1:])
