"""What an assertion may hold at the most, by the built program: each border, and what is told one step beyond it; and
programs that are built and run. `outside` imports it. What must be told is what docs/REFUSALS.md says.
"""
import os
import sys

sys.path.append(f"{os.path.dirname(os.path.realpath(__file__))}/../models")
from bytecode_cases import SAMPLE, Reader

DECLARED = "$var wire 1 ! clk $end\n$var wire 1 x x $end\n$var wire 1 y y $end\n$var wire 8 v v $end\n"

# One tick, at which x is 1, y is 0 and v, of 8 bits, is 3; and what `x |-> y` comes to there.
DUMP = f"{DECLARED}$enddefinitions $end\n#0\n0!\n1x\n0y\nb11 v\n#5\n1!\n"
REPORT = ("svamon 1\nclocks 1\nmonitor r holds 0 vacuous 0 fails 1 disabled 0 open 0\n"
          "fail r start 0 clock 0\ntotal holds 0 vacuous 0 fails 1 disabled 0 open 0\n")


def assertion(body, name="r"):
    return f"{name}: assert property (@(posedge clk) {body});\n"


def in_a_row(between, parts):
    return between.join(parts)


def booleans(count):
    """An assertion with so many booleans, 64 of them in its antecedent."""
    each = [f"v == 8'd{it}" for it in range(count)]
    return f"{in_a_row(' ##1 ', each[:64])} |-> {in_a_row(' ##1 ', each[64:])}"


def wide_dump(signals):
    """A dump of `clk` and of so many signals of one bit, without a tick."""
    made = "".join(f"$var wire 1 s{it} s_{it} $end\n" for it in range(signals))
    return f"$var wire 1 ! clk $end\n{made}$enddefinitions $end\n#0\n0!\n"


def put(shell, name, text):
    with open(f"{shell.folder}/{name}", "w") as file:
        file.write(text)


def told(shell, text, dump="one.vcd"):
    """What a check tells of a text: the line of its fault, or nothing; nothing is written beside a fault."""
    put(shell, "border.sva", text)
    status, out, line = shell.run(f"check --vcd {dump} --sva border.sva")
    if status == 2 and out:
        return "it was refused after a beginning"
    return line.decode().removesuffix("\n")


def try_texts(shell):
    """Booleans, signals, names and assertions, each as many or as long as may be, and one more."""
    put(shell, "wide_row.vcd", wide_dump(256))
    put(shell, "clockless.vcd", "$var wire 8 v v $end\n$enddefinitions $end\n")
    signals = [in_a_row(" ^ ", (f"s_{it}" for it in range(count))) for count in (255, 256)]
    many = assertion("x |-> y", "").removeprefix(": ")
    for text, dump, line in (
            (assertion(booleans(127)), "one.vcd", ""),
            (assertion(booleans(128)), "one.vcd", "svamon: K1 TooManyAtoms"),
            (assertion(booleans(128)), "clockless.vcd", "svamon: C1 NoClock"),
            (assertion(booleans(128), "n" * 65_536), "one.vcd", "svamon: K1 TooManyAtoms"),
            (assertion(signals[0]), "wide_row.vcd", ""),
            (assertion(signals[1]), "wide_row.vcd", "svamon: K3 TooManySlots"),
            (assertion("x |-> y", "n" * 65_535), "one.vcd", ""),
            (assertion("x |-> y", "n" * 65_536), "one.vcd", "svamon: K4 TextTooLong"),
            (many * 4096, "one.vcd", ""),
            (many * 4097, "one.vcd", "svamon: U3 BadJob")):
        shell.tally.note(f"{len(text)} bytes: {text[:40]}", line, told(shell, text, dump))


def try_sections(shell):
    """Sections of 3,844 and 8,708 instructions; tables of 36,895 and 81,953, of which 3 are kept."""
    for count, front, rest, line in (
            (8, "", "", ""), (9, "", "", "svamon: K2 CodeTooLong"),
            (10, "(", " ##1 x) intersect y or x", ""),
            (11, "(", " ##1 x) intersect y or x", "svamon: K2 CodeTooLong")):
        chain = in_a_row(" ##0 ", ["(x or y)"] * count)
        found = told(shell, assertion(f"x |-> {front}{chain}{rest}"))
        shell.tally.note(f"{count} parts {rest}", line, found)


def built(shell, body):
    """The bytes of an assertion's program, or the line of the fault."""
    put(shell, "border.sva", assertion(body))
    status, _, line = shell.run("build --vcd one.vcd --sva border.sva --name r --out border.svm")
    if status:
        return line.decode().removesuffix("\n")
    with open(f"{shell.folder}/border.svm", "rb") as file:
        return file.read()


class Counting(Reader):
    """A reader that keeps how many instructions the sample code has."""
    length = None

    def code(self, table):
        if table is SAMPLE:
            self.length = int.from_bytes(self.data[self.at:self.at + 2], "big")
        return super().code(table)


def held(code):
    """The version of a file of bytecode, the pools that it declares, and the length of its sample code."""
    reader = Counting(code)
    reader.program()
    return reader.version, int.from_bytes(code[9:11], "big"), int.from_bytes(code[11:13], "big"), reader.length


def try_programs(shell):
    """Code at its border, and pools: a first match takes no other ones than what it stands for."""
    for before, count, length in (("~", 2046, 4096), ("", 2046, 4095)):
        found = held(built(shell, f"{before}({in_a_row(' ^ ', 'x' * count)}) |-> y"))
        shell.tally.note(f"{before} {count} operands", length, found[3])
    found = built(shell, f"({in_a_row(' ^ ', 'x' * 2047)}) |-> y")
    shell.tally.note("2047 operands", "svamon: K2 CodeTooLong", found)
    for body, pools in (
            ("x |-> ##[1:3] y", (4, 4)), ("(x[*1:3] ##1 y) |-> v[0]", (4, 1)),
            ("first_match(x[*1:3] ##1 y) |-> v[0]", (4, 1))):
        shell.tally.note(body, (2, *pools), held(built(shell, body))[:3])
    code = built(shell, "x |-> ##[1:3] y")
    with open(f"{shell.folder}/poor_pool.svm", "wb") as file:
        file.write(code[:10] + b"\3" + code[11:])
    shell.expect("run --vcd one.vcd --code poor_pool.svm", 2, line="svamon: F13 PoolTooSmall attempts 4")


def try_names(shell):
    """A program of the one that is named, and none of a name that isn't there."""
    put(shell, "border.sva", assertion("y |-> x", "q") + assertion("x |-> y"))
    shell.expect("build --vcd one.vcd --sva border.sva --name r --out border.svm", 0)
    shell.expect("run --vcd one.vcd --code border.svm --workers 2", 1, REPORT.encode())
    words = ["build", "--vcd", "one.vcd", "--sva", "border.sva", "--name", "s\nt", "--out", "none.svm"]
    shell.expect(words, 2, line="svamon: N1 NoAssertion s\\nt")


def try_borders(shell):
    """All of these, over a dump of one tick."""
    put(shell, "one.vcd", DUMP)
    for part in (try_texts, try_sections, try_programs, try_names):
        part(shell)
