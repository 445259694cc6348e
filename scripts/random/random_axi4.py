#!/usr/bin/env python3
"""Compares svamon with axi4_judge.py on random AXI4 ports and dumps.

    scripts/random/random_axi4.py SVAMON [CASES [SEED]]

SVAMON is the program. Each case is a port file of one or two ports and a dump with their signals. For
it `check --axi`, `check` over the text that `rules --axi` prints after a text of its own, and
`judge --axi` must print the report of axi4_judge.py, byte for byte, with its status; and the tokens of
`rules --axi` must be those of axi4_rules.py. In one case of eight the port file is a faulty one, and
the fault is compared.

Drawn are: the edges of all ranges of a port file, and values between; both modes and cases, with and
without watched IDs; channels that hold their payload while they wait, and that now and then don't;
ready signals that come soon, late and hardly ever; addresses at the ends of pages; resets; bits of 0
written as x or z; changes before the edge and in its step. It stops at the first case that differs,
and leaves its files in the working folder.
"""
import pathlib
import random
import subprocess
import sys

sys.path.insert(0, str(pathlib.Path(__file__).resolve().parents[1] / "models"))

import axi4_judge
import axi4_rules

draw = random.Random()
DUMP, PORTS, OWN, TEXT = (pathlib.Path(f"random_axi4.{end}") for end in ("vcd", "txt", "sva", "joined.sva"))
FAULTS = [text for text in axi4_rules.fault_files() if axi4_rules.answer(text).startswith("X")]


def port_line(name, prefix):
    width = draw.choice([1, 1, 4, 16, 16])
    ids = draw.sample(range(min(2 ** width, 32)), draw.choice([1, 2, min(2 ** width, 16)]))
    if width == 16:
        ids[0] = 65535
    fields = [
        "clock=top.clk", "reset=top.rst_n", f"prefix={prefix}", f"addr={draw.choice([12, 13, 32, 63, 64])}",
        f"data={draw.choice([8, 16, 32, 64, 128])}", f"id={width}",
        draw.choice(["", "wait=0", "wait=1", "wait=3", "wait=64"]), draw.choice(["", "mode=multi", "mode=single"]),
        draw.choice(["", "case=lower", "case=upper"]), draw.choice(["", f"watch={','.join(map(str, ids))}"]),
    ]
    draw.shuffle(fields)
    return " ".join(["port", name, *filter(None, fields)])


def port_file():
    prefixes = draw.sample(["top.s_", "", "axi_", "top.u.M_"], draw.choice([1, 1, 2]))
    lines = [port_line(f"p{at}", prefix) for at, prefix in enumerate(prefixes)]
    return "\n".join(["# drawn", *lines]) + draw.choice(["", "\n", "\n\n  \n"])


def payload(name, size, watch):
    """A value of a payload signal, at the edges of what the rules ask."""
    edges = {
        "len": [0, 0, 1, 3, 7, 15, 15, 16, 255], "size": [0, 0, 1, 2, 3, 4, 7], "burst": [0, 1, 1, 2, 2, 3],
        "addr": [0, 8, 0xFF8, 0xFC0, 0xFFF, 0x100, 2 ** size - 1, 2 ** size - 8],
        "id": [0, 1, 2 ** size - 1, *watch, *watch],
        "resp": [0, 0, 1, 2],
    }
    values = edges.get(name, [])
    return draw.choice(values) if values and draw.randrange(6) else draw.randrange(2 ** size)


def next_row(row, names, watch, chances):
    """The values of a port's signals after those of the last clock."""
    then = {}
    for c, parts in axi4_judge.PAYLOAD.items():
        is_waiting = row.get(c + "valid") and not row.get(c + "ready")
        keeps = is_waiting and draw.random() < chances["keep"]
        then[c + "valid"] = 1 if keeps else int(draw.random() < chances["valid"])
        then[c + "ready"] = int(draw.random() < chances[c])
        for part in parts:
            stays = keeps and draw.random() < chances["keep"]
            then[c + part] = row[c + part] if stays else payload(part, names[c + part][1], watch)
    return then


def digits(value, size):
    bits = format(value, f"0{size}b")
    return "".join(draw.choice("xz") if bit == "0" and draw.randrange(60) == 0 else bit for bit in bits)


class Dump:
    """A VCD text that grows by changes; only values that changed are written, but for some."""

    def __init__(self, sizes):
        self.codes = {path: f"c{at}" for at, path in enumerate(sizes)}
        self.sizes, self.now, self.lines = sizes, {}, []
        for path, size in sizes.items():
            *scopes, name = path.split(".")
            self.lines += [f"$scope module {scope} $end" for scope in scopes]
            self.lines.append(f"$var wire {size} {self.codes[path]} {name} $end")
            self.lines += ["$upscope $end"] * len(scopes)
        self.lines.append("$enddefinitions $end")

    def change(self, values):
        for path, value in values.items():
            if self.now.get(path) != value or draw.randrange(20) == 0:
                size = self.sizes[path]
                written = digits(value, size)
                self.lines.append(f"{written}{self.codes[path]}" if size == 1 else f"b{written} {self.codes[path]}")
                self.now[path] = value


def dump_of(ports):
    named = [axi4_judge.signals(port) for port in ports]
    sizes = {"top.clk": 1, "top.rst_n": 1, **{path: size for names in named for path, size in names.values()}}
    dump, rows, in_reset = Dump(sizes), [{} for _ in ports], draw.choice([0, 1, 3])
    chances = [{"keep": draw.choice([0.5, 0.9, 1]), "valid": draw.choice([0.1, 0.5, 0.9]),
                **{c: draw.choice([0.01, 0.3, 0.9]) for c in axi4_judge.PAYLOAD}} for _ in ports]
    clocks, late = draw.choice([0, 1, 2, 10, 30, 100]), draw.randrange(4) == 0
    dump.lines.append("#0")
    dump.change({"top.clk": 0})
    for clock in range(clocks):
        rows = [next_row(row, names, port["watch"], chance)
                for row, names, port, chance in zip(rows, named, ports, chances)]
        in_reset = max(0, in_reset - 1) or draw.randrange(40) // 39
        values = {names[n][0]: value for row, names in zip(rows, named) for n, value in row.items()}
        values["top.rst_n"] = 0 if in_reset else 1
        rise = [lambda: dump.lines.append(f"#{10 * clock + 5}"), lambda: dump.change({"top.clk": 1})]
        for step in [rise[0], lambda: dump.change(values), rise[1]] if late else [lambda: dump.change(values), *rise]:
            step()
        dump.lines.append(f"#{10 * clock + 10}")
        dump.change({"top.clk": 0})
    return "\n".join(dump.lines) + "\n"


def run(svamon, *words):
    ran = subprocess.run([svamon, *map(str, words)], stdin=subprocess.DEVNULL, capture_output=True, text=True)
    return ran.returncode, ran.stdout, ran.stderr


def tokens_of(text):
    return " ".join(line for line in text.split("\n") if not line.startswith("//")).split()


def differs(number, what, found, wanted):
    if found != wanted:
        sys.exit(f"random_axi4: case {number}: {what} differs: found\n{found}\nwanted\n{wanted}")


def faulty_case(svamon, number):
    DUMP.write_text(dump_of([]))
    OWN.write_text("// nothing\n")
    text = draw.choice(FAULTS)
    PORTS.write_bytes(text.encode())
    wanted = (2, "", f"svamon: {axi4_rules.answer(text)}\n")
    for command in ("check", "judge"):
        differs(number, command, run(svamon, command, "--vcd", DUMP, "--sva", OWN, "--axi", PORTS), wanted)
    differs(number, "rules", run(svamon, "rules", "--axi", PORTS), wanted)


def case(svamon, number):
    ports_text = port_file()
    ports = axi4_rules.read(ports_text)
    DUMP.write_text(dump_of(ports))
    PORTS.write_text(ports_text)
    OWN.write_text("// nothing of its own, and no line feed")
    report = axi4_judge.report(DUMP.read_text(), ports_text)
    wanted = (int("\nfail " in report), report, "")
    for command in ("check", "judge"):
        differs(number, f"{command} --axi", run(svamon, command, "--vcd", DUMP, "--sva", OWN, "--axi", PORTS), wanted)
    status, rules, fault = run(svamon, "rules", "--axi", PORTS)
    said = [token for port in ports for line in axi4_rules.rules(port) for token in line]
    differs(number, "rules --axi", (status, tokens_of(rules), fault), (0, said, ""))
    TEXT.write_text(f"{OWN.read_text()}\n{rules}")
    differs(number, "check of the rules", run(svamon, "check", "--vcd", DUMP, "--sva", TEXT), wanted)
    return report.count("\nfail ")


def main(svamon, cases="100", seed="1"):
    draw.seed(int(seed))
    fails = 0
    for number in range(int(cases)):
        if draw.randrange(8) == 0:
            faulty_case(svamon, number)
        else:
            fails += case(svamon, number)
    for path in (DUMP, PORTS, OWN, TEXT):
        path.unlink(missing_ok=True)
    print(f"random_axi4: {cases} cases agree, with {fails} failures")


if __name__ == "__main__":
    if not 2 <= len(sys.argv) <= 4:
        sys.exit("random_axi4.py SVAMON [CASES [SEED]]")
    main(*sys.argv[1:])
