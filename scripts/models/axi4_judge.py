#!/usr/bin/env python3
"""Judges the AXI4 rules of a port file over a dump, by what the rules mean.

    scripts/models/axi4_judge.py DUMP PORTS > REPORT

It shares no text with svamon: no rule is read or made as an assertion. What each rule says is written
below as a condition and a demand over rows of values, counters as numbers, and each attempt is
judged by looking at its ticks one by one. The report is the one that `svamon check --axi` must write
over a text with no assertion of its own. Port files are read by axi4_rules.py, dumps by
reference_report.py.
"""
import collections
import sys

import axi4_rules
import reference_report

ADDRESS_PAYLOAD = "id addr len size burst lock cache prot".split()
PAYLOAD = {"aw": ADDRESS_PAYLOAD, "w": ["strb", "last"], "b": ["id", "resp"], "ar": ADDRESS_PAYLOAD,
           "r": ["id", "resp", "last"]}
FIXED = {"len": 8, "size": 3, "burst": 2, "lock": 1, "cache": 4, "prot": 3, "last": 1, "resp": 2, "valid": 1,
         "ready": 1}
INCR, WRAP, EXOKAY = 1, 2, 1
VERDICTS = ("holds", "vacuous", "fails", "disabled", "open")

# A rule: at a tick where `asks` is true, `wants` must be true at one of the ticks from `least` to `most` after it.
Rule = collections.namedtuple("Rule", "name asks wants least most in_reset", defaults=(0, 0, False))


def signals(port):
    """The names of a port's signals by those of the table, and their widths."""
    sizes = {**FIXED, "id": port["id"], "addr": port["addr"], "strb": port["data"] // 8}
    return {c + s: (axi4_rules.signal(port, c + s), sizes[s]) for c in PAYLOAD for s in ("valid", "ready", *PAYLOAD[c])}


def rows_of(port, paths, steps):
    """What is sampled of a port at each rise of its clock, by the table's names; `reset` is true in reset."""
    named = signals(port)
    for path, size in [*named.values(), (port["reset"], 1), (port["clock"], 1)]:
        if path not in paths or paths[path][1] != size:
            sys.exit(f"axi4_judge: the dump has no {path} of {size} bits")
    found = reference_report.sampled(paths, steps, port["clock"],
                                     [port["reset"], *(path for path, _ in named.values())])
    return [{"reset": row[0] == 0, **dict(zip(named, row[1:]))} for row in found]


def held(value, bits):
    return max(0, min(value, 2 ** bits - 1))


def count(rows, port):
    """Adds to each row what the counters hold at its tick: what happened at the ticks before, since the last reset."""
    now = collections.Counter()
    for row in rows:
        row["counts"] = dict(now)
        now = collections.Counter() if row["reset"] else after(now, row, port)


def after(now, row, port):
    """The counters after a tick that isn't in reset."""
    aw, w, b, ar, r = (row[c + "valid"] and row[c + "ready"] for c in PAYLOAD)
    then = collections.Counter(now)
    then["awo"] = held(now["awo"] + bool(aw) - bool(b), 16)
    then["wlo"] = held(now["wlo"] + bool(w and row["wlast"]) - bool(b), 16)
    then["aro"] = held(now["aro"] + bool(ar) - bool(r and row["rlast"]), 16)
    for i in port["watch"]:
        then["awo", i] = held(now["awo", i] + bool(aw and row["awid"] == i) - bool(b and row["bid"] == i), 16)
        then["aro", i] = held(now["aro", i]
                              + bool(ar and row["arid"] == i) - bool(r and row["rlast"] and row["rid"] == i), 16)
    for x, taken in (("w", aw), ("r", ar)):
        if taken:
            then[x + "lock"], then[x + "len"] = row[f"a{x}lock"], row[f"a{x}len"]
    for x, taken in (("w", w), ("r", r)):
        if taken:
            then[x + "beat"] = 0 if row[x + "last"] else held(now[x + "beat"] + 1, 9)
    return then


def channel_rules(c, rows, wait):
    def valid(t):
        return rows[t][c + "valid"]

    def waits(t):
        return rows[t][c + "valid"] and not rows[t][c + "ready"]

    yield Rule(c + "_reset", lambda t: rows[t]["reset"], lambda t: not valid(t), 1, 1, True)
    yield Rule(c + "_hold", waits, valid, 1, 1)
    for s in PAYLOAD[c]:
        yield Rule(f"{c}{s}_stable", waits, lambda t, s=s: rows[t][c + s] == rows[t - 1][c + s], 1, 1)
    if wait:
        yield Rule(c + "_wait", waits, lambda t: rows[t][c + "ready"], 1, wait)


def address_rules(x, rows, data):
    def get(t, *names):
        return [rows[t][x + name] for name in names]

    def total(t):
        length, size = get(t, "len", "size")
        return (length + 1) * 2 ** size

    def is_within_page(t):
        address, size = get(t, "addr", "size")
        start = address % 4096 // 2 ** size * 2 ** size
        return start + total(t) <= 4096

    def valid(t):
        return rows[t][x + "valid"]

    def when(burst):
        return lambda t: valid(t) and rows[t][x + "burst"] == burst

    def locked(t):
        return valid(t) and rows[t][x + "lock"]

    yield Rule("burst", valid, lambda t: get(t, "burst") != [3])
    yield Rule("len", lambda t: valid(t) and get(t, "burst") != [INCR], lambda t: get(t, "len")[0] < 16)
    yield Rule("size", valid, lambda t: 8 * 2 ** get(t, "size")[0] <= data)
    yield Rule("wrap_len", when(WRAP), lambda t: get(t, "len")[0] + 1 in (2, 4, 8, 16))
    yield Rule("wrap_align", when(WRAP), lambda t: get(t, "addr")[0] % 2 ** get(t, "size")[0] == 0)
    yield Rule("4k", when(INCR), is_within_page)
    yield Rule("cache", lambda t: valid(t) and not get(t, "cache")[0] & 2, lambda t: get(t, "cache")[0] < 4)
    yield Rule("excl_len", locked, lambda t: get(t, "len")[0] < 16)
    yield Rule("excl_bytes", locked, lambda t: total(t) in (1, 2, 4, 8, 16, 32, 64, 128))
    yield Rule("excl_align", locked, lambda t: not get(t, "addr")[0] % 4096 & (total(t) - 1))


def response_rules(port, rows):
    def counted(t, key):
        return rows[t]["counts"].get(key, 0)

    def some(key):
        return lambda t: counted(t, key) != 0

    def valid(c, i=None):
        return lambda t: rows[t][c + "valid"] and i in (None, rows[t][c + "id"])

    def exokay(c):
        return lambda t: rows[t][c + "valid"] and rows[t][c + "resp"] == EXOKAY

    def last(c):
        return lambda t: bool(rows[t][c + "last"]) == (counted(t, c + "beat") == counted(t, c + "len"))

    yield Rule("b_after_aw", valid("b"), some("awo"))
    yield Rule("b_after_w", valid("b"), some("wlo"))
    yield Rule("r_after_ar", valid("r"), some("aro"))
    for c, kind in (("b", "awo"), ("r", "aro")):
        for i in port["watch"]:
            yield Rule(f"{c}_id_{i}", valid(c, i), some((kind, i)))
    if port["mode"] == "single":
        yield Rule("b_exokay", exokay("b"), some("wlock"))
        yield Rule("r_exokay", exokay("r"), some("rlock"))
        yield Rule("w_last", lambda t: rows[t]["wvalid"] and counted(t, "awo") == 1 and not counted(t, "wlo"),
                   last("w"))
        yield Rule("r_last", lambda t: rows[t]["rvalid"] and counted(t, "aro") == 1, last("r"))


def rules_of(port, rows):
    """A port's rules in the order of the table."""
    for c in PAYLOAD:
        yield from channel_rules(c, rows, port["wait"])
    for x in ("aw", "ar"):
        yield from (rule._replace(name=f"{x}_{rule.name}") for rule in address_rules(x, rows, port["data"]))
    yield from response_rules(port, rows)


def verdict(rule, rows, start):
    """The verdict of the attempt that begins at the tick, and the tick that gives it."""
    for t in range(start, start + rule.most + 1):
        if t >= len(rows):
            return "open", None
        if rows[t]["reset"] and not rule.in_reset:
            return "disabled", t
        if t == start and not rule.asks(t):
            return "vacuous", t
        if t >= start + rule.least and rule.wants(t):
            return "holds", t
    return "fails", start + rule.most


def counts_text(counts):
    return " ".join(f"{kind} {counts[kind]}" for kind in VERDICTS)


def report(dump, ports):
    """The report of the rules of all ports; their clocks must be the same."""
    paths, steps = reference_report.read_dump(dump)
    lines, total, clocks = [], collections.Counter(), 0
    for port in axi4_rules.read(ports):
        rows = rows_of(port, paths, steps)
        count(rows, port)
        clocks = len(rows)
        for rule in rules_of(port, rows):
            judged = [(*verdict(rule, rows, start), start) for start in range(clocks)]
            counts = collections.Counter(kind for kind, _, _ in judged)
            total += counts
            lines.append(f"monitor {port['name']}_{rule.name} {counts_text(counts)}")
            fails = sorted((clock, start) for kind, clock, start in judged if kind == "fails")
            lines += [f"fail {port['name']}_{rule.name} start {start} clock {clock}" for clock, start in fails]
    return "\n".join(["svamon 1", f"clocks {clocks}", *lines, f"total {counts_text(total)}", ""])


def main(dump, ports):
    with open(dump) as dumped, open(ports) as named:
        sys.stdout.write(report(dumped.read(), named.read()))


if __name__ == "__main__":
    if len(sys.argv) != 3:
        sys.exit("axi4_judge.py DUMP PORTS > REPORT")
    main(*sys.argv[1:])
