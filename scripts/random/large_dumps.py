#!/usr/bin/env python3
"""Reads large dumps in parts: scripts/random/large_dumps.py SVAMON [DUMPS [SEED]]

A dump of over 1 MB is read in parts by as many threads as there are workers. Each random dump here has 1 to 5 MB, with
what could mislead who begins in the middle: comments with lines that look like times, times that are told twice, wide
values, lines that end in two bytes, times within a line, reals; and half of them are then damaged. `check` by several
workers must tell what it tells by one, and that what the judge tells, which reads by one thread: the report or the
refusal with its line, and the status.
"""
import random
import subprocess
import sys
import tempfile

HEADER = """$timescale 1ns $end
$scope module tb $end
$var wire 1 ! clk $end
$var wire 1 a a $end
$var wire 8 b b [7:0] $end
$var wire 128 w w [127:0] $end
$var wire 100 &* v $end
$var real 64 r r $end
$upscope $end
$enddefinitions $end
"""
RULES = """n: assert property (@(posedge tb.clk) tb.a |-> ##[1:3] tb.b[0] || tb.w[127:64] == tb.w[63:0]);
p: assert property (@(posedge tb.clk) tb.v[99:90] != 10'd5 |=> tb.w[100] == $past(tb.w[100], 2) || tb.a);
"""
PIECES = ["#", "\n#5\n", "x!", "b", "$comment", "$end", "b1012 w", "zz", "#99999999999999999999\n", "1?\n", "\n#0\n"]
WORKERS = (2, 3, 4, 8, 64)


def bits(draw, most):
    return "".join(draw.choice("01xz") for _ in range(draw.randint(1, most)))


def step(draw, kind):
    """The lines after a time: changes, most of them of the clock."""
    lines = []
    for _ in range(draw.choice([0, 1, 1, 2, 4])):
        lines.append(draw.choice([
            draw.choice("01") + "!", draw.choice("01") + "!", draw.choice("01xz") + "a", f"b{bits(draw, 8)} b",
            f"b{bits(draw, kind['wide'])} w", f"B{bits(draw, kind['wide'])} &*", "r1.5 r", "$dumpvars", "$end",
        ]))
    if draw.random() < kind["comments"]:
        words = "\n".join(f"#{draw.randrange(9)}\n{draw.choice('01')}!" for _ in range(draw.choice([1, 3, 30000])))
        lines.append(f"$comment {words}\n$end")
    return lines


def dump(draw):
    kind = {
        "wide": draw.choice([1, 60, 64, 65, 128, 150]), "comments": draw.choice([0, 0, 0.0001, 0.001]),
        "again": draw.choice([0, 0, 0.01, 0.5]), "line": draw.choice(["\n", "\n", "\n", "\r\n", " ", "\n\n", "\n \t"]),
    }
    size, text, now = draw.randint(1, 5) << 20, [HEADER], 0
    while size > 0:
        now += 0 if draw.random() < kind["again"] else draw.randint(1, 9)
        piece = kind["line"].join([f"#{now}", *step(draw, kind), ""])
        text.append(piece)
        size -= len(piece)
    return "".join(text)


def damaged(draw, text):
    for _ in range(draw.randint(1, 3)):
        at = draw.randrange(len(HEADER), len(text))
        text = text[:at] + draw.choice(PIECES) + text[at + draw.choice([0, 1, 3]):]
    return text[:draw.randrange(len(text))] if draw.random() < 0.2 else text


def told(words):
    ran = subprocess.run(words, capture_output=True, timeout=600)
    return ran.returncode, ran.stdout, ran.stderr


def main(svamon, dumps=20, seed=1):
    draw, refused, failed = random.Random(int(seed)), 0, 0
    for number in range(int(dumps)):
        text = dump(draw)
        text = damaged(draw, text) if draw.random() < 0.5 else text
        with tempfile.TemporaryDirectory() as room:
            files = ["--vcd", f"{room}/dump.vcd", "--sva", f"{room}/rules.sva"]
            for name, content in ("dump.vcd", text), ("rules.sva", RULES):
                with open(f"{room}/{name}", "w", newline="") as out:
                    out.write(content)
            judged = told([svamon, "judge", *files])
            refused += judged[0] == 2
            for words in [["--workers", str(n)] for n in (1, *WORKERS)] + [["--workers", "4", "--json", f"{room}/it"]]:
                if told([svamon, "check", *files, *words]) != judged:
                    failed += 1
                    print(f"dump {number} of seed {seed}: check {' '.join(words[:2])} tells another thing than judge")
    print(f"large_dumps: {dumps} dumps, of which {refused} are refused; {failed} runs of check differ")
    return 1 if failed else 0


if __name__ == "__main__":
    sys.exit(main(*sys.argv[1:]))
