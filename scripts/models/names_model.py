#!/usr/bin/env python3
"""What `svamon names` must write: names_model.py DUMP [--match TEXT] [--scope PATH]

It reads a VCD header by itself (IEEE 1364-2005, clause 18.2.3): sections are what stands before each
`$end`. The words of the language are those of docs/MEANING.md.
"""
import re
import sys

LANGUAGE = set("""sequence endsequence assert assume property posedge disable iff or and throughout intersect within
first_match strong weak not if else case always nexttime eventually until s_always s_nexttime s_eventually s_until
s_until_with until_with implies accept_on reject_on cover restrict default clocking negedge edge local""".split())
REASONS = {"real": "a real", "realtime": "a real", "string": "a string", "event": "an event"}
RANGE = re.compile(rb"\[[^\[]*:[^\[]*\]\Z", re.S)
WORD = rb"[A-Za-z_][A-Za-z0-9_$]*"


def declarations(data):
    """The path, size, range and kind of each variable, in order."""
    scopes, section = [], []
    for token in data.split():
        if token != b"$end":
            section.append(token)
            continue
        word, fields, section = section[0], section[1:], []
        if word == b"$enddefinitions":
            return
        if word == b"$scope":
            scopes.append(fields[1])
        if word == b"$upscope" and scopes:
            scopes.pop()
        if word == b"$var":
            reference = b"".join(fields[3:])
            found = RANGE.search(reference)
            declared = found.group() if found else b""
            name = reference[: len(reference) - len(declared)]
            yield b".".join(scopes + [name]), int(fields[1]), declared, fields[0]


def reason(path, size, kind, seen):
    """Why no rule names it, or None."""
    if kind.decode("latin-1") in REASONS:
        return REASONS[kind.decode()]
    if size == 0:
        return "of 0 bits"
    if size > 128:
        return "over 128 bits"
    if not re.fullmatch(WORD + rb"(\." + WORD + rb")*", path):
        return "not words joined by dots"
    if path.split(b".")[0].decode() in LANGUAGE:
        return "begins with a word of the language"
    return "an earlier variable has this path" if path in seen else None


def table(data, text, scope):
    rows, seen, total = [], set(), 0
    for path, size, declared, kind in declarations(data):
        why = reason(path, size, kind, seen)
        seen.add(path)
        total += 1
        if text not in path or (scope is not None and not path.startswith(scope + b".")):
            continue
        note = b"" if why is None else b"not in a rule: " + why.encode()
        rows.append((path, str(size).encode(), declared, kind, note))
    if not rows:
        return b"0 of %d variables\n" % total
    wide = [max(min(len(row[column]), most) for row in rows) for column, most in enumerate((60, 10, 16, 16))]
    lines = []
    for path, size, declared, kind, note in rows:
        line = path.ljust(wide[0]) + b"  " + size.rjust(wide[1]) + b"  " + declared.ljust(wide[2]) + b"  "
        lines.append(line + (kind.ljust(wide[3]) + b"  " + note if note else kind) + b"\n")
    return b"".join(lines)


def main(words):
    options = dict(zip(words[1::2], words[2::2]))
    with open(words[0], "rb") as file:
        data = file.read()
    scope = options.get("--scope")
    sys.stdout.buffer.write(table(data, options.get("--match", "").encode(), None if scope is None else scope.encode()))


if __name__ == "__main__":
    main(sys.argv[1:])
