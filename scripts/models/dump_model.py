#!/usr/bin/env python3
"""What the bytes of a dump say, or their first fault, by a reader of its own: it goes over lists of tokens, each with
its line, and knows nothing of how the crates read. It prints what crates/answers_reports prints of the same file.

    scripts/models/dump_model.py DUMP CLOCK [PATH ..]
"""
import re
import sys

TOKEN = re.compile(rb"[^ \t\r\n]+")
LONE = (b"$dumpvars", b"$dumpall", b"$dumpon", b"$dumpoff", b"$end")
NO_VECTOR = (b"real", b"realtime", b"string", b"event")
DIGITS = b"01xXzZ"


class Fault(Exception):
    """Why bytes are no dump, as svamon names it."""


class Tokens:
    """The tokens of a dump, each with its line, one after the other."""

    def __init__(self, data):
        self.data, self.tokens, line, at = data, [], 1, 0
        for found in TOKEN.finditer(data):
            line, at = line + data.count(b"\n", at, found.start()), found.start()
            self.tokens.append((found.group(), line, found.end() == len(data)))
        self.tokens.reverse()

    def next(self):
        """The next token with its line, and whether the input ends with it; None at the end."""
        return self.tokens.pop() if self.tokens else None

    def section(self, word_line):
        """The tokens up to $end, and the line of that."""
        inside = []
        while self.tokens:
            token, line, _ = self.tokens.pop()
            if token == b"$end":
                return inside, line
            inside.append((token, line))
        raise Fault(f"V4 UnclosedSection {word_line}")


def number_of(text, limit):
    """A decimal below the limit, or None."""
    return int(text) if re.fullmatch(rb"[0-9]+", text) and int(text) < limit else None


def is_code(text):
    return all(33 <= byte <= 126 for byte in text)


def bad(line):
    return Fault(f"V1 BadToken {line}")


def small_section(tokens, word_line, most):
    """The tokens of a section that has exactly so many."""
    inside = []
    while len(inside) <= most:
        found = tokens.next()
        if found is None:
            raise Fault(f"V4 UnclosedSection {word_line}")
        if (found[0] == b"$end") != (len(inside) == most):
            raise bad(found[1])
        inside.append(found[0])
    return inside[:most]


def var(tokens, scopes, word_line):
    """A variable's path, type, size and code."""
    fields = []
    for place in range(4):
        found = tokens.next()
        if found is None:
            raise Fault(f"V4 UnclosedSection {word_line}")
        token, line, _ = found
        if place == 1 and number_of(token, 1 << 32) is None and token != b"$end":
            raise Fault(f"V5 BadSize {line}")
        if token == b"$end" or place == 2 and not is_code(token):
            raise bad(line)
        fields.append(token)
    more, _ = tokens.section(word_line)
    name = re.sub(rb"\[[^\[]*:[^\[]*\]$", b"", fields[3] + b"".join(token for token, _ in more))
    return b".".join([*scopes, name]), fields[0], int(fields[1]), fields[2]


def header(tokens):
    """The variables that the header declares, in its order."""
    scopes, variables = [], []
    while True:
        found = tokens.next()
        if found is None:
            raise Fault("V6 Truncated")
        word, line, _ = found
        if word == b"$enddefinitions":
            small_section(tokens, line, 0)
            return variables
        if not word.startswith(b"$") or word == b"$end":
            raise bad(line)
        if word == b"$scope":
            scopes.append(small_section(tokens, line, 2)[1])
        elif word == b"$upscope":
            small_section(tokens, line, 0)
            del scopes[-1:]
        elif word == b"$var":
            variables.append(var(tokens, scopes, line))
        else:
            tokens.section(line)


def change(codes, code, line, digits):
    if code not in codes:
        raise Fault(f"V2 UnknownCode {line}") if is_code(code) else bad(line)
    return code, digits


def body(tokens, codes):
    """The steps: each a time and its changes, which are codes with digits."""
    steps = [(0, [])]
    while True:
        found = tokens.next()
        if found is None:
            return steps
        token, line, is_last = found
        first, rest = token[:1], token[1:]
        if first == b"#":
            time = number_of(rest, 1 << 64)
            if time is None:
                raise bad(line)
            if time < steps[-1][0]:
                raise Fault(f"V3 TimeBack {line}")
            if time > steps[-1][0]:
                steps.append((time, []))
        elif first in (b"b", b"B"):
            if not rest or rest.strip(DIGITS):
                raise bad(line)
            code = tokens.next()
            if code is None:
                raise Fault("V6 Truncated")
            steps[-1][1].append(change(codes, code[0], code[1], rest))
        elif first in (b"r", b"R", b"s", b"S"):
            if tokens.next() is None:
                raise Fault("V6 Truncated")
        elif first in DIGITS and not rest:
            raise Fault("V6 Truncated") if is_last else bad(line)
        elif first in DIGITS:
            steps[-1][1].append(change(codes, rest, line, first))
        elif first == b"$":
            if token not in LONE:
                tokens.section(line)
        else:
            raise bad(line)


def value(digits, size):
    """Digits as a number of that size: extended or cut on the left, x and z as 0."""
    pad = b"0" if digits[:1] in b"01" else digits[:1]
    digits = (pad * (size - len(digits)) + digits)[-size:]
    return int(bytes(49 if digit == 49 else 48 for digit in digits), 2)


def bindable(variables):
    """The paths that name a variable that can be bound, with size and code."""
    first = {}
    for path, kind, size, code in variables:
        first.setdefault(path, (kind, size, code))
    return {path: (size, code) for path, (kind, size, code) in first.items()
            if kind not in NO_VECTOR and 1 <= size <= 128}


def rows(steps, clock, bound):
    """The values of the variables before each edge of the clock's code."""
    now, found = {}, []
    for _, changes in steps:
        before = dict(now)
        now.update(changes)
        if clock in before and value(before[clock], 1) == 0 and value(now[clock], 1) == 1:
            found.append([value(before[code], size) if code in before else 0 for size, code in bound])
    return found


def read(data):
    """The variables and the steps, or a Fault."""
    tokens = Tokens(data)
    variables = header(tokens)
    return variables, body(tokens, {code for _, _, _, code in variables})


def lines(name, data, clock, paths):
    """What answers_reports prints of a file; without its ticks if the clock can't be one."""
    try:
        variables, steps = read(data)
    except Fault as fault:
        return [f"{name} {fault}"]
    bound, names = bindable(variables), [path.encode() for path in paths]
    changes = sum(len(changed) for _, changed in steps)
    counts = f"{name} names {len(bound)} steps {len(steps)} changes {changes}"
    if bound.get(clock.encode(), (0, b""))[0] != 1:
        return [counts]
    found = rows(steps, bound[clock.encode()][1], [bound[path] for path in names])
    ticks = sorted({tick for tick in (0, 1, len(found) // 2, len(found) - 1) if 0 <= tick < len(found)})
    shown = [" ".join(f"{path} {value}" for path, value in zip(paths, found[tick])) for tick in ticks]
    return [f"{counts} ticks {len(found)}", *(f"{name} tick {tick} {row}" for tick, row in zip(ticks, shown))]


if __name__ == "__main__":
    with open(sys.argv[1], "rb") as file:
        print("\n".join(lines(sys.argv[1], file.read(), sys.argv[2], sys.argv[3:])))
