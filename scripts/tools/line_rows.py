"""What dumps say whose lines are written in each way, and mutants of them, by the built program `answers_reports`.
`outside` imports it. What must come is worked out by `scripts/models/dump_model.py`.
"""
import os
import random
import subprocess
import sys

HERE = os.path.dirname(os.path.realpath(__file__))
sys.path.append(f"{HERE}/../models")

from dump_model import bindable, header, lines, Fault, Tokens  # noqa: E402

CLOCK = "tb.clk"
SIZES = (1, 8, 64, 65, 128)
CODES = ("a", "a#", "~~~", "wxyz", "wxyz!", "1", "b", "#5")
ENDS = ("\n", "\r\n", " \n", "\t\n", "\n\n", "\n\t", " ")
MOST_DIGITS = 130
TIMES = (0, 1, 9, 10, 99_999_999, 10 ** 17, 10 ** 18 - 1, 10 ** 18, 10 ** 18 + 1, 10 ** 19 - 1, 10 ** 19, 2 ** 64 - 1,
         2 ** 64)
MUTANTS = 10_000
PIECES = ("#", "\n", "\r", "\t", " ", "$", "$end", "b", "x", "Z", "0", "1", "#0\n", "\n#7\n", "1!", "\0", "\x80",
          "$comment ", "b10 a\n", "r1 a\n")


def head(code):
    """A header with the clock, and a variable of each size with the code."""
    variables = "".join(f"$var wire {size} {code} w{size} $end\n" for size in SIZES)
    return f"$scope module tb $end\n$var wire 1 ! clk $end\n{variables}$upscope $end\n$enddefinitions $end\n"


def stepped(change, end="\n", code="a"):
    """A dump in which the change comes before the second edge of the clock, each line ended so."""
    words = ["#0", "0!", "#5", "1!", "#10", "0!", change, "#15", "1!", "#20", "0!", "#25", "1!", ""]
    return head(code) + end.join(words)


def digits_of(count, kind):
    """So many digits of a vector."""
    if kind in "01xz":
        return kind * count
    draw = random.Random(count)
    return "".join(draw.choice("01xXzZ" if kind == "mixed" else "01") for _ in range(count))


def written_dumps():
    """Dumps by name, whose lines are written in each way."""
    for code in CODES:
        for at, end in enumerate(ENDS):
            for digit in "01xXzZ2":
                yield stepped(f"{digit}{code}", end, code)
            yield stepped(f"b1011 {code}", end, code)
            yield stepped(f"B10x1\t{code}", end, code)
            yield stepped(f"b10z1  {code}", end, code)
            yield stepped(f"b1\n{code}", end, code)
            yield stepped(f"r1.5 {code}", end, code)
    for count in range(MOST_DIGITS + 1):
        for kind in ("0", "1", "x", "z", "drawn", "mixed"):
            yield stepped(f"b{digits_of(count, kind)} a")
    for time in TIMES:
        for front in ("", "0", "0" * 20):
            yield head("a") + f"#0\n0!\n1a\n#{front}{time}\n1!\n#{front}{time}\n0a\n"
    for more in ("#", "#1x", "#-1", "##5", "#18446744073709551616", "1", "b1", "b", "b1 ", "r", "rx\n", "1a1", "u!"):
        yield stepped("1a") + more
        yield stepped(more)


def prefixes():
    """A dump with each kind of line, cut at each of its bytes."""
    whole = stepped("b1x0 a\nr1.5 a\n$comment #3 $end\n$dumpoff\nxa\n$end\n1a\nB1 a")
    for end in range(len(whole) + 1):
        yield whole[:end]


def mutant(draw, text):
    """The text with one to three changes."""
    for _ in range(draw.randint(1, 3)):
        at = draw.randrange(len(text) + 1)
        to = min(len(text), at + draw.choice((1, 1, 2, 5, 20)))
        text = draw.choice((
            text[:at], text[:at] + text[to:], text[:at] + draw.choice(PIECES) + text[at:],
            text[:at] + draw.choice(PIECES) + text[to:], text[:to] + text[at:to] + text[to:],
        )[draw.choice((0, 1, 1, 2, 2, 2, 3, 3, 4)):][:1])
    return text


def mutants(count, seed):
    """So many mutants of dumps whose lines are written in each way."""
    draw, whole = random.Random(seed), [*written_dumps()]
    for _ in range(count):
        yield mutant(draw, draw.choice(whole))


def paths_of(data):
    """The paths of the dump that can be bound and written in a line."""
    try:
        named = bindable(header(Tokens(data)))
    except Fault:
        return []
    return [path.decode() for path in named if path.isascii() and path.decode().isprintable()]


def compare(program, folder, dumps):
    """Reads the dumps by the program in one go; yields each that it reads otherwise than the model."""
    wanted, traces = {}, []
    for number, text in enumerate(dumps):
        name, data = f"{number}.vcd", text.encode("latin-1")
        with open(f"{folder}/{name}", "wb") as file:
            file.write(data)
        paths = paths_of(data)
        wanted[name] = text, lines(name, data, CLOCK, paths)
        traces.append(" ".join([name, CLOCK, *paths]))
    with open(f"{folder}/traces.txt", "w", encoding="ascii") as file:
        file.write("".join(f"{trace}\n" for trace in traces))
    ran = subprocess.run([program, "dumps"], cwd=folder, stdin=subprocess.DEVNULL, stdout=subprocess.PIPE, check=False)
    found = {}
    for line in ran.stdout.decode("latin-1").splitlines():
        found.setdefault(line.split(" ", 1)[0], []).append(line)
    for name, (text, line) in wanted.items():
        here = found.get(name, [])
        if len(line) == 1 and " names " in line[0] and " ticks " not in line[0] and here:
            here = [here[0][:len(line[0])]]
        if here != line:
            yield text, line, here


def try_line_rows(root, shell):
    """Each dump, and mutants of them; the folder is emptied after each batch."""
    program = f"{root}/crates/answers_reports/out/answers_reports"
    for dumps in (written_dumps(), prefixes(), mutants(MUTANTS, 1)):
        dumps = [*dumps]
        wrong = [*compare(program, shell.folder, dumps)]
        for text, wanted, here in wrong[:5]:
            shell.tally.note(f"dump {text[-60:]!r}", wanted, here)
        shell.tally.passed += len(dumps) - len(wrong)
        shell.tally.failed += max(0, len(wrong) - 5)
        for number in range(len(dumps)):
            os.remove(f"{shell.folder}/{number}.vcd")
