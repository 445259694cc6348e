"""Programs in version 1: upgraded, and run, by the built program.

`outside` imports it. The programs, their rows and what they decide are cases of `crates/answers_bytecode`, which
`scripts/models/machine_cases.py` made with a machine of its own. Each program in version 1 whose signals a dump can
have is written in version 2 by `upgrade`, and run: its report must be what the case's decisions come to.
"""
import os
import re
import sys

HERE = os.path.dirname(os.path.realpath(__file__))
sys.path += [f"{HERE}/../models"]

from stored_parts import read_part
from verifier_model import decode

CRATE = f"{HERE}/../../crates/answers_bytecode"
KINDS = ("Holds", "Vacuous", "Fails", "Disabled")
WORDS = ("holds", "vacuous", "fails", "disabled", "open")
PATH = re.compile(r"[A-Za-z_]\w*(\.[A-Za-z_]\w*)*")


def read(text):
    return [case.split("\n") for case in f"\n{text}".split("\ncase ")[1:]]


def cases():
    """Each case: its name, its file of bytecode, its rows, and what is told of each clock, then of the end."""
    with open(f"{CRATE}/data/machine_cases.txt") as file:
        stored = read(file.read())
    for (name, *asked), (again, *told) in zip(stored, read(read_part(f"{CRATE}/stdout", "machine")), strict=True):
        assert name == again
        rows = [[int(it) for it in line.split()[1:]] for line in asked[1:] if line.startswith("row")]
        yield name, bytes.fromhex(asked[0].split()[1]), rows, [line for line in told if line]


def dump_of(clock, signals, rows):
    """A dump in which the signals, a width and a path each, have these values at the ticks of the clock."""
    lines = []
    for at, (width, path) in enumerate([(1, clock), *signals]):
        *scopes, own = path.split(".")
        lines += [f"$scope module {it} $end" for it in scopes]
        lines += [f"$var wire {width} c{at} {own} $end"] + ["$upscope $end"] * len(scopes)
    lines.append("$enddefinitions $end")
    for tick, row in enumerate(rows):
        lines += [f"#{10 * tick}", "0c0"] + [f"b{value:b} c{at}" for at, value in enumerate(row, 1)]
        lines += [f"#{10 * tick + 5}", "1c0"]
    return "\n".join(lines) + "\n"


def report_of(name, clocks, told):
    """The report that the decisions of a case come to."""
    counts, failures = dict.fromkeys(KINDS, 0), []
    for line in told[:-1]:
        for start, kind, clock in re.findall(r"\((\d+) (\w+) (\d+)\)", line):
            counts[kind] += 1
            failures += [(int(clock), int(start))] if kind == "Fails" else []
    numbers = [*counts.values(), len(told[-1].split()) - 1]
    said = " ".join(f"{word} {number}" for word, number in zip(WORDS, numbers))
    lines = ["svamon 1", f"clocks {clocks}", f"monitor {name} {said}"]
    lines += [f"fail {name} start {start} clock {clock}" for clock, start in sorted(failures)]
    return "\n".join([*lines, f"total {said}", ""]).encode(), int(bool(failures))


def try_version_rows(shell):
    tried = 0
    for title, code, rows, told in cases():
        program = decode(code)
        signals = [(width, path.decode(errors="replace")) for width, path in program.signals]
        clock, name = (it.decode(errors="replace") for it in (program.clock, program.name))
        named = [clock, *(path for _, path in signals)]
        if code[4] != 1 or len(set(named)) < len(named) or not all(PATH.fullmatch(it) for it in named):
            continue
        tried += 1
        with open(f"{shell.folder}/row.vcd", "w") as file:
            file.write(dump_of(clock, signals, rows))
        with open(f"{shell.folder}/first.svm", "wb") as file:
            file.write(code)
        shell.expect("upgrade first.svm --out second.svm", 0)
        report, status = report_of(name, len(rows), told)
        words = "run --vcd row.vcd --code second.svm --workers 1"
        shell.tally.note(f"{title}: {words}", (status, report, b""), shell.run(words))
        with open(f"{shell.folder}/second.svm", "rb") as file:
            shell.tally.note(f"{title}: in version 2", code[:4] + b"\2" + code[5:], file.read())
    shell.tally.note("programs in version 1", True, tried > 500)
