"""What `check` tells of dumps of over 1 MB, which are read in parts, by the built program. `outside` imports it.
Reports are those of `scripts/models/reference_report.py`, lines of faults are counted where the dump is made. Where
parts begin is worked out anew, so that some begin where they can't be taken.
"""
import os
import subprocess
import sys

MODEL = f"{os.path.dirname(os.path.realpath(__file__))}/../models/reference_report.py"
HEADER = """$scope module tb $end
$var wire 1 ! clk $end
$var wire 1 a a $end
$var wire 1 b b $end
$var wire 128 w w [127:0] $end
$upscope $end
$enddefinitions $end
"""
RULE = "r: assert property (@(posedge tb.clk) tb.a |-> tb.b);\n"
WIDE = "r: assert property (@(posedge tb.clk) tb.w[127:64] == tb.w[63:0] |-> tb.b || tb.w[70:66] == 5'd3);\n"
TEAM_FILE = """module checks(input clk, a, b);
r: assert property (@(posedge clk) a |-> b);
endmodule
"""
STEPS = 120_000
TEAMS = (1, 2, 3, 8)
# Other ways to judge the large dump by several workers: each reads it in parts, too.
OTHERS = (
    "check --vcd large.vcd --sva large.sva --json large.json",
    "check --vcd large.vcd --sva large.sva --keep-going --workers 3",
    "check --vcd large.vcd --sva large.sva --html large.html --workers 2",
    "check --vcd large.vcd --sv large.sv --scope tb --workers 3",
    "run --vcd large.vcd --code large.svm --workers 3",
)


def steps(count=STEPS, more=lambda number: "", times=1, start=0):
    """So many steps with a clock that rises at each second one, each over 18 bytes long."""
    for number in range(count):
        time = f"#{start + 10 * number}\n" * times
        yield f"{time}{number % 2}!\n{int(number % 3 == 0)}a\n{int(number % 7 < 4)}b\n{more(number)}"


def dump(*parts):
    return HEADER + "".join("".join(part) for part in parts)


def comment(number):
    """A long text now and then whose lines look like times and changes."""
    return "$comment " + f"#{number}\n1!\n#7\n0b\n" * 20_000 + "$end\n" if number % 20_000 == 9_999 else ""


def wide(number):
    high = number * 2654435761 % 2 ** 40 if number % 5 else number * 11400714819323198485 % 2 ** 64
    low = high if number % 11 == 0 else number
    return f"b{high << 64 | low:b} w\n"


def cuts(text, parts):
    """Where the parts of a dump begin but the first, from the last one on."""
    start, to, found = text.index("$enddefinitions $end") + 20, len(text), []
    for left in range(parts, 1, -1):
        cut = text.find("\n#", to - (to - start) // left, to)
        to = cut + 1 if cut >= 0 else to - (to - start) // left
        found += [cut] if cut >= 0 else []
    return found


def told_again(parts):
    """Steps whose time is told once more in their middle, so that a part begins at such a time."""
    for room in range(100):
        text = HEADER + "$comment " + "x" * room + " $end\n"
        text += "".join(f"#{n}0\n{n % 2}!\n#{n}0\n{int(n % 3 == 0)}a\n{int(n % 7 < 4)}b\n" for n in range(STEPS))
        times = [text[at + 1:text.index("\n", at + 1)] for at in cuts(text, parts)]
        before = [text[:at].rfind("\n#") + 1 for at in cuts(text, parts)]
        if any(text[at:text.index("\n", at)] == time for at, time in zip(before, times)):
            return text
    raise AssertionError("no part begins at a time that is told again")


def told_by_the_model(shell):
    words = [sys.executable, MODEL, f"{shell.folder}/large.vcd", f"{shell.folder}/large.sva"]
    return subprocess.run(words, stdout=subprocess.PIPE, check=True).stdout


def put(shell, text, rule):
    for name, content in ("large.vcd", text), ("large.sva", rule), ("large.sv", TEAM_FILE):
        with open(f"{shell.folder}/{name}", "w", newline="") as file:
            file.write(content)


def try_reports(shell):
    plain = dump(steps())
    put(shell, plain, RULE)
    shell.expect("build --vcd large.vcd --sva large.sva --name r --out large.svm", 0)
    for text in (plain, plain.replace("\n", "\r\n"), plain.replace("\n", " "), plain.replace("\n", " \t\n\n"),
                 dump(steps(more=comment)), dump(steps(times=2)), told_again(2), told_again(3),
                 dump(steps(), ["1a\n" * 300_000])):
        put(shell, text, RULE)
        report = told_by_the_model(shell)
        for workers in TEAMS:
            shell.expect(f"check --vcd large.vcd --sva large.sva --workers {workers}", 1, report)
        for words in OTHERS:
            shell.expect(words, 1, report)


def try_wide(shell):
    """The judge reads by one thread."""
    put(shell, dump(steps(count=STEPS // 2, more=wide)), WIDE)
    status, report, _ = shell.run("judge --vcd large.vcd --sva large.sva")
    for workers in TEAMS:
        shell.expect(f"check --vcd large.vcd --sva large.sva --workers {workers}", status, report)


def try_refusals(shell):
    half, whole = dump(steps(STEPS // 2)), dump(steps())
    lines = half.count("\n")
    late = list(steps(start=10 * STEPS))
    for text, fault in (
        (half + "".join(steps()), f"V3 TimeBack {lines + 1}"),
        (half + "1?\n" + "".join(steps(start=10 * STEPS)) + "1?\n", f"V2 UnknownCode {lines + 1}"),
        (half + "".join(late[:-1]) + "b101\n", "V6 Truncated"),
        (half + "$comment\n" + "".join(late), f"V4 UnclosedSection {lines + 1}"),
        (whole + "1", "V6 Truncated"),
        (half + "#\n" + "".join(late), f"V1 BadToken {lines + 1}"),
    ):
        put(shell, text, RULE)
        for workers in TEAMS:
            words = f"check --vcd large.vcd --sva large.sva --workers {workers}"
            shell.expect(words, 2, line=f"svamon: {fault}")
        for words in OTHERS:
            shell.expect(words, 2, line=f"svamon: {fault}")


def try_large(shell):
    try_reports(shell)
    try_wide(shell)
    try_refusals(shell)
