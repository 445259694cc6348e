#!/usr/bin/env python3
"""Whether `check` and `judge` write the same: scripts/random/same_reports.py SVAMON

Over each example, and each text of answers_texts (suites.txt, texts.txt) over a dump of random values of all the names
in them, it compares what `svamon check` writes by 1, 4, 2 and 64 workers through windows of 1, 7, 1,000 and 65,536
clocks, and its status, with what `svamon judge` writes. A text that `check` can't compile (K1 to K4), or on which the
slow `judge` takes over ten seconds, is counted apart.
"""
import os
import random
import re
import subprocess
import sys
import tempfile

TOP = os.path.dirname(os.path.dirname(os.path.dirname(os.path.abspath(__file__))))
DATA = f"{TOP}/crates/answers_texts/data"
WORDS = r"[A-Za-z_][A-Za-z0-9_$]*(?:\.[A-Za-z_][A-Za-z0-9_$]*)*"


def run(words):
    try:
        ran = subprocess.run(words, capture_output=True, text=True, timeout=10)
    except subprocess.TimeoutExpired:
        return None
    return ran.returncode, ran.stdout, ran.stderr


def compare(svamon, vcd, text, *more):
    """Whether there is a report, after a comparison; nothing where the text can't be compiled, or not be judged in
    time."""
    files = ["--vcd", vcd, "--sva", text, *more]
    judged = run([svamon, "judge", *files])
    if judged is None:
        return None
    for workers, window in ("1", "1"), ("4", "7"), ("2", "1000"), ("64", "65536"):
        checked = run([svamon, "check", *files, "--workers", workers, "--window", window])
        if checked and checked[2].startswith("svamon: K"):
            return None
        if checked != judged:
            sys.exit(f"same_reports: {' '.join(files)}, workers {workers}, window {window}: {checked} and {judged}")
    return judged[0] in (0, 1)


def dump(widths, chance):
    """A dump of these paths with thirty ticks; names that end in c or in clk take each value in turn."""
    lines = []
    codes = {path: f"c{at}" for at, path in enumerate(widths)}
    for path, width in widths.items():
        *scopes, name = path.split(".")
        lines += [f"$scope module {it} $end" for it in scopes]
        lines += [f"$var wire {width} {codes[path]} {name} $end"] + ["$upscope $end" for _ in scopes]
    lines.append("$enddefinitions $end")
    for half in range(60):
        lines.append(f"#{half}")
        for path, width in widths.items():
            is_clock = width == 1 and re.search(r"(^|\.)(c|clk)$", path)
            value = half % 2 if is_clock else chance.getrandbits(width)
            if is_clock or half % 2 == 0:
                lines.append(f"b{value:b} {codes[path]}")
    return "\n".join(lines) + "\n"


def texts_of(file):
    with open(file, newline="") as it:
        return [line for line in it.read().split("\n") if line.strip()]


def with_names(file):
    widths = {}
    if file == "suites.txt":
        for line in texts_of(f"{DATA}/names.txt"):
            path, width = line.split(" ")
            widths.setdefault(path, int(width))
    return widths


def compare_texts(svamon, file, room):
    chance, counts = random.Random(1), [0, 0, 0]
    for line in texts_of(f"{DATA}/{file}"):
        widths = with_names(file) or {path: 1 if re.search(r"(^|\.)(c|clk|r|rst)$", path) else chance.randint(1, 4)
                                      for path in re.findall(WORDS, line)}
        with open(f"{room}/top.vcd", "w") as it:
            it.write(dump(widths, chance))
        with open(f"{room}/text.sva", "w", newline="") as it:
            it.write(line + "\n")
        told = compare(svamon, f"{room}/top.vcd", f"{room}/text.sva")
        counts[2 if told is None else int(told)] += 1
    print(f"same_reports: {file}: {counts[1]} texts with a report, {counts[0]} refused, all the same; "
          f"{counts[2]} not compiled, or not judged in time")


def main(svamon):
    for name in sorted(os.listdir(f"{TOP}/examples")):
        folder = f"{TOP}/examples/{name}"
        if os.path.exists(f"{folder}/dump.vcd"):
            ports = ["--axi", f"{folder}/ports.txt"] if os.path.exists(f"{folder}/ports.txt") else []
            told = compare(svamon, f"{folder}/dump.vcd", f"{folder}/assertion.sva", *ports)
            print(f"same_reports: {name}: {'a report' if told else 'REFUSED'}")
    with tempfile.TemporaryDirectory() as room:
        compare_texts(svamon, "suites.txt", room)
        compare_texts(svamon, "texts.txt", room)


if __name__ == "__main__":
    main(os.path.abspath(sys.argv[1])) if len(sys.argv) == 2 else sys.exit(__doc__)
