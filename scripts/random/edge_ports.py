#!/usr/bin/env python3
"""Whether the rules of every port at the edges of a port file have no fault.

    scripts/random/edge_ports.py SVAMON

For each port of `edge_ports` (scripts/models/axi4_rules.py: every width of data, IDs of 1 and 16 bits, no wait, one
tick and 64, both modes, both cases, with and without watched IDs) it writes a dump that has the port's signals at their
widths and twelve ticks of random values, runs `svamon check` and `svamon judge` with --axi on an empty text, and
`svamon check` on what `svamon rules` prints: all must write one report, with a monitor for each rule of the table.

`cases` has the port files that the gate runs (`scripts/tools/report_rows.py`), in which those ports that have their
signals in common stand together.
"""
import itertools
import os
import random
import re
import subprocess
import sys
import tempfile

sys.path.insert(0, f"{os.path.dirname(os.path.realpath(__file__))}/../models")

import axi4_rules

WIDTHS = {"len": 8, "size": 3, "burst": 2, "cache": 4, "prot": 3, "resp": 2}


def signals(port):
    """The names of a port's signals, each with its width."""
    found = {}
    for channel, items in axi4_rules.PAYLOAD.items():
        for item in [*items.split(), "valid", "ready"]:
            own = {"id": port["id"], "addr": port["addr"], "strb": port["data"] // 8}
            found[axi4_rules.signal(port, channel + item)] = own.get(item) or WIDTHS.get(item, 1)
    return found


def dump(port, chance, ticks=12):
    widths = {port["clock"]: 1, port["reset"]: 1, **signals(port)}
    codes = {path: f"c{at}" for at, path in enumerate(widths)}
    lines = []
    for path, width in widths.items():
        *scopes, name = path.split(".")
        lines += [f"$scope module {it} $end" for it in scopes]
        lines += [f"$var wire {width} {codes[path]} {name} $end"] + ["$upscope $end" for _ in scopes]
    lines.append("$enddefinitions $end")
    for tick in range(ticks):
        lines += [f"#{tick}0", f"0{codes[port['clock']]}"]
        for path, width in widths.items():
            if path == port["reset"]:
                lines.append(f"{int(tick > 1)}{codes[path]}")
            elif path != port["clock"]:
                lines.append(f"b{chance.getrandbits(width):b} {codes[path]}")
        lines += [f"#{tick}5", f"1{codes[port['clock']]}"]
    return "\n".join(lines) + "\n"


def written(path, text):
    with open(path, "w") as it:
        it.write(text)
    return path


def run(words):
    ran = subprocess.run(words, capture_output=True, text=True)
    if ran.returncode not in (0, 1) or ran.stderr:
        sys.exit(f"edge_ports: {' '.join(words)}: status {ran.returncode}: {ran.stderr}")
    return ran.stdout


def main(svamon):
    chance, monitors = random.Random(1), 0
    with tempfile.TemporaryDirectory() as room:
        empty = written(f"{room}/empty.sva", "")
        for line in axi4_rules.edge_ports():
            port = axi4_rules.port_of(line, 1)
            vcd, ports = written(f"{room}/top.vcd", dump(port, chance)), written(f"{room}/ports.txt", line)
            rules = written(f"{room}/rules.sva", run([svamon, "rules", "--axi", ports]))
            report = run([svamon, "check", "--vcd", vcd, "--sva", empty, "--axi", ports])
            others = [run([svamon, "judge", "--vcd", vcd, "--sva", empty, "--axi", ports]),
                      run([svamon, "check", "--vcd", vcd, "--sva", rules])]
            named = re.findall(r"(?m)^monitor (\S+) ", report)
            wanted = [tokens[0] for tokens in axi4_rules.rules(port) if "assert" in tokens]
            if others != [report, report] or named != wanted:
                sys.exit(f"edge_ports: {line}: the reports differ, or their rules are not the table's")
            monitors += len(named)
    print(f"edge_ports: {len(list(axi4_rules.edge_ports()))} ports, {monitors} rules, no fault, and one report each")


def cases():
    """The port files of the gate's cases: the twelve ports that share their signals."""
    for at, (data, width, case) in enumerate(itertools.product((8, 16, 32, 64, 128), (1, 16), ("lower", "upper"))):
        prefix, ids = ("top.u.s_", "", "axi_")[at % 3], "1,0" if width == 1 else "65535,0,7"
        own = (f"clock=top.clk reset=top.rst_n prefix={prefix} addr={12 + at * 52 // 19} data={data} id={width} "
               f"case={case}")
        varied = itertools.product((0, 1, 64), ("multi", "single"), ("", f" watch={ids}"))
        yield "".join(f"port p{n} {own} wait={wait} mode={mode}{watch}\n"
                      for n, (wait, mode, watch) in enumerate(varied))


if __name__ == "__main__":
    if len(sys.argv) != 2:
        sys.exit(__doc__)
    main(os.path.abspath(sys.argv[1]))
