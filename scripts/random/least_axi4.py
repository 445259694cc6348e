#!/usr/bin/env python3
"""Runs every AXI4 rule over a least trace that makes it fail, and over one that makes it hold.

    scripts/random/least_axi4.py SVAMON

For a port in mode multi, one in mode single and one with watched IDs it draws traces of one clock, then of two, and so
on, until each rule has one in which the judge of rules (axi4_judge.py, which shares no text with svamon) lets an
attempt of it fail, and one in which it lets one hold. Over the dump of each of them `svamon check` and `svamon judge`
must print that judge's report. Before that come traces whose answers were worked out by hand.
"""
import os
import random
import subprocess
import sys
import tempfile

sys.path.insert(0, f"{os.path.dirname(os.path.realpath(__file__))}/../models")

import axi4_judge
import axi4_rules

BASE = "port p clock=top.clk reset=top.rst_n prefix=top.s_ addr=32 data=64 id=4 wait=1"
PORTS = (BASE, BASE + " mode=single", BASE + " mode=single watch=3,5")
DRAWS, MOST = 20_000, 7
EDGES = {
    "len": (0, 1, 2, 3, 7, 15, 16), "size": (0, 1, 2, 3, 4), "burst": (0, 1, 2, 3), "id": (3, 5, 3, 0),
    "addr": (0, 8, 0x10, 0x18, 0x0A, 0xFF8, 0xFFF), "resp": (0, 1, 2), "cache": (0, 1, 2, 4, 8, 15),
    "strb": (0, 1, 255),
}


def dump_of(port, rows):
    """A dump in which the port's signals have the rows' values at the ticks; a signal that a row leaves out is 0."""
    named = {**axi4_judge.signals(port), "rst_n": (port["reset"], 1), "clk": (port["clock"], 1)}
    codes = {name: f"c{at}" for at, name in enumerate(named)}
    lines = []
    for name, (path, width) in named.items():
        *scopes, own = path.split(".")
        lines += [f"$scope module {it} $end" for it in scopes]
        lines += [f"$var wire {width} {codes[name]} {own} $end"] + ["$upscope $end" for _ in scopes]
    lines.append("$enddefinitions $end")
    for tick, row in enumerate(rows):
        values = {**row, "rst_n": int(not row.get("reset", False))}
        lines += [f"#{10 * tick}", f"0{codes['clk']}"]
        lines += [f"b{values.get(name, 0):b} {codes[name]}" for name in named if name != "clk"]
        lines += [f"#{10 * tick + 5}", f"1{codes['clk']}"]
    return "\n".join(lines) + "\n"


def drawn(draw, port, count):
    """A trace of so many clocks, in which much stays as it was."""
    rows, named = [], axi4_judge.signals(port)
    for _ in range(count):
        row = {"reset": not draw.randrange(12)}
        for name, (_, width) in named.items():
            kind = name[2:] if name.startswith("a") else name[1:]
            value = draw.choice(EDGES[kind]) if kind in EDGES else draw.randrange(1 << min(width, 4))
            row[name] = rows[-1][name] if rows and draw.randrange(2) else value % (1 << width)
        rows.append(row)
    return rows


def least_traces(draw, port):
    """For each rule and each of the two verdicts a trace, with as few clocks as were found to do."""
    found, names = {}, None
    for count in range(1, MOST + 1):
        for _ in range(DRAWS if count < 4 else DRAWS // 4):
            rows = drawn(draw, port, count)
            axi4_judge.count(rows, port)
            rules = list(axi4_judge.rules_of(port, rows))
            names = {it.name for it in rules}
            for rule in rules:
                if (rule.name, "fails") in found and (rule.name, "holds") in found:
                    continue
                for start in range(count):
                    kind, _ = axi4_judge.verdict(rule, rows, start)
                    if kind in ("fails", "holds"):
                        found.setdefault((rule.name, kind), rows)
        if len(found) == 2 * len(names):
            break
    return names, found


def reports(svamon, room, line, rows):
    """The report of `check`, where `judge` and the judge of rules have the same."""
    port = axi4_rules.port_of(line, 1)
    vcd, ports, sva = (f"{room}/{it}" for it in ("top.vcd", "ports.txt", "empty.sva"))
    for path, text in ((vcd, dump_of(port, rows)), (ports, line + "\n"), (sva, "")):
        with open(path, "w") as it:
            it.write(text)
    made = []
    for command in ("check", "judge"):
        ran = subprocess.run([svamon, command, "--vcd", vcd, "--sva", sva, "--axi", ports], capture_output=True,
                             text=True)
        made.append(ran.stdout)
    wanted = axi4_judge.report(dump_of(port, rows), line + "\n")
    if made != [wanted, wanted]:
        sys.exit(f"least_axi4: {line}: {rows}: the reports differ")
    return wanted


def burst(size, length, address, **more):
    return {"awvalid": 1, "awready": 1, "awsize": size, "awlen": length, "awaddr": address, "awburst": 1, **more}


def worked():
    """Rows, and lines that the report must have, or must not have."""
    yield [burst(3, 0, 0xFF8)], ["monitor p_aw_4k holds 1 vacuous 0 fails 0 disabled 0 open 0"], []
    yield [burst(3, 1, 0xFF8)], ["fail p_aw_4k start 0 clock 0"], []
    yield [{"awvalid": 1}, {}], ["fail p_aw_hold start 0 clock 1"], []
    yield [{"arvalid": 1, "arready": 1, "rvalid": 1}, {}], ["fail p_r_after_ar start 0 clock 0"], []
    yield [{"arvalid": 1, "arready": 1},
           {"rvalid": 1}], ["monitor p_r_after_ar holds 1 vacuous 1 fails 0 disabled 0 open 0"], []
    whole = ("p_aw_excl_align", "p_aw_excl_bytes", "p_aw_excl_len")
    yield [burst(2, 3, 0x10, awlock=1)], [], [f"fail {it} start 0 clock 0" for it in whole]
    yield [burst(2, 3, 0x18, awlock=1)], ["fail p_aw_excl_align start 0 clock 0"], []
    yield [burst(2, 2, 0x10, awlock=1)], ["fail p_aw_excl_bytes start 0 clock 0"], []
    yield [burst(2, 3, 0x0A, awburst=2)], ["fail p_aw_wrap_align start 0 clock 0"], []


def main(svamon):
    draw, traces, lacking = random.Random(1), 0, []
    with tempfile.TemporaryDirectory() as room:
        for rows, wanted, unwanted in worked():
            lines = reports(svamon, room, BASE, rows).split("\n")
            if not set(wanted) <= set(lines) or set(unwanted) & set(lines):
                sys.exit(f"least_axi4: {rows}: not what was worked out")
            traces += 1
        for line in PORTS:
            names, found = least_traces(draw, axi4_rules.port_of(line, 1))
            lacking += [f"{name} {kind}" for name in sorted(names) for kind in ("fails", "holds")
                        if (name, kind) not in found]
            for rows in found.values():
                reports(svamon, room, line, rows)
                traces += 1
    if lacking:
        sys.exit(f"least_axi4: no trace for {', '.join(lacking)}")
    print(f"least_axi4: {traces} traces, each rule of three ports failing and holding, the same reports")


if __name__ == "__main__":
    main(os.path.abspath(sys.argv[1])) if len(sys.argv) == 2 else sys.exit(__doc__)
