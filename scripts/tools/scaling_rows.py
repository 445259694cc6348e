"""How time and memory grow with the input: each command over a text, a dump or a team's file of one shape, at a size
and at twice as much. `outside` imports it.

Not among them are shapes that still grow faster than they should: sequences of which `lint` refuses thousands, scopes
inside one another, packages that hand on names of thousands of others.
"""
import os
import subprocess
import sys

# What twice as much may take at the most, and the seconds and megabytes below which nothing is compared.
MOST, LEAST_SECONDS, LEAST_MEGABYTES = 2.6, 0.08, 40
# What the names that are meant, and doubled sequences may take, on a machine many times slower than those of today.
MOST_SECONDS, MOST_MEGABYTES = 4, 100
HEAD = """$timescale 1ns $end
$scope module tb $end
$var wire 1 ! clk $end
$var wire 1 " a $end
$var wire 1 # b $end
$var wire 8 % w [7:0] $end
$upscope $end
$enddefinitions $end
"""
CLOCKS = "".join(f'#{10 * at}\n0!\n{at & 1}"\n{at >> 1 & 1}#\nb{at:b} %\n#{10 * at + 5}\n1!\n' for at in range(10))
RULE = "r{}: assert property (@(posedge tb.clk) {});\n"
OWN = "p{}: assert property (@(posedge clk) {});\n"
KNOWN = "p{0}: assert property (@(posedge clk) a == X{0});\n"


def many(form, count, *more):
    return "".join(form.format(at, *more) for at in range(count))


def within(items):
    return f"module m;\n{items}endmodule\n"


def doubled(line, count):
    """Declarations of which each is two of the one before it."""
    return "".join(line.format(at, at - 1) for at in range(1, count))


def declared(lines):
    return HEAD.replace("$upscope", f"{lines}$upscope") + CLOCKS


# By what is written, each with the commands that read it, and a size.
TEXTS = {
    "rules": (("check", "judge", "lint"), 3000, lambda n: many(RULE, n, "tb.a |-> tb.b")),
    "rules of the past": (("check",), 2000, lambda n: many(RULE, n, "$past(tb.w, 3) == 8'd5 |-> tb.b")),
    "sequences": (("check", "lint"), 5000,
                  lambda n: many("sequence s{} ; tb.a ##1 tb.b endsequence\n", n) + RULE.format(1, "s0")),
    "a chain": (("lint",), 20_000, lambda n: RULE.format(1, " ##1 ".join(["tb.a"] * n))),
    "rules that end too early": (("lint",), 4000, lambda n: many(RULE, n, "tb.a |->")),
    "strings in rules": (("lint",), 4000, lambda n: many(RULE, n, 'tb.a |-> "x"')),
    "unknown names": (("lint",), 4000, lambda n: many(RULE, n, "tb.a |-> tb.c")),
    "unknown names in rules of a sequence": (("lint",), 3000, lambda n: "sequence s; tb.a; endsequence\n"
                                             + many(RULE, n, "s |-> tb.c")),
    "rules of one name": (("lint",), 3000, lambda n: RULE.format(1, "tb.a |-> tb.b") * n),
    "what is no rule": (("lint", "check"), 40_000, lambda n: "if ( begin " * n),
}
DUMPS = {
    "variables": (("check", "names", "lint"), 15_000, lambda n: declared(many("$var wire 1 v{0} v{0} $end\n", n))),
    "names of one code": (("check", "names"), 15_000, lambda n: declared(many("$var wire 1 ! q{} $end\n", n))),
    "times": (("check",), 150_000, lambda n: HEAD + CLOCKS + "".join(f"#{1000 + at}\n" for at in range(n))),
    "comments": (("check", "names"), 60_000, lambda n: HEAD + "$comment x $end\n" * n + CLOCKS),
    "a long vector": (("check",), 2_000_000, lambda n: f"{HEAD}{CLOCKS}#900\nb{'1' * n} %\n"),
    "a long name": (("check", "names"), 1_000_000, lambda n: declared(f"$var wire 1 v {'n' * n} $end\n")),
}
TEAMS = {
    "assertions": (("import", "check"), 2000, lambda n: many(OWN, n, "a |-> b")),
    "macros": (("import",), 1500,
               lambda n: many("`define m{0} {0}\n", n) + many("p{0}: assert property (@(posedge clk) `m{0});\n", n)),
    "one label": (("import",), 3000, lambda n: many("p: assert property (@(posedge clk) a |-> b);\n", n)),
    "conditionals": (("import",), 20_000, lambda n: "`ifdef A\n" * n + "`endif\n" * n + OWN.format(1, "a")),
    "blocks": (("import",), 20_000,
               lambda n: f"module m; initial {'begin ' * n}{'end ' * n}endmodule\n{OWN.format(1, 'a')}"),
    "packages": (("import",), 1000, lambda n: many("package k{0}; localparam X{0} = 1; endpackage\n", n)
                 + within(many("import k{}::*;\n", n) + many(KNOWN, n))),
    "packages of one module each": (("import",), 2000, lambda n: many(
        "package k{0}; localparam X = 1; endpackage module m{0}; import k{0}::*;\n"
        "p{0}: assert property (@(posedge clk) a == X); endmodule\n", n)),
    "names of packages": (("import",), 4000, lambda n: many("package k{0}; localparam X{0} = 1; endpackage\n", n)
                          + within(many("import k{0}::X{0};\n", n) + many(KNOWN, n))),
    "packages without a name that is used": (("import",), 1000, lambda n: many("package k{}; endpackage\n", n)
                                             + f"package q; {many('export k{}::*; ', n)}endpackage\n"
                                             + within("import q::*;\n" + many(OWN, n, "a"))),
    "lets of a declared signal": (("import",), 8192, lambda n: within(
        f"logic a; let s0 = a;\n{doubled('let s{0} = s{1} ^ s{1};' + chr(10), n.bit_length())}"
        f"{OWN.format(1, f's{n.bit_length() - 1}')}")),
    "ports": (("import",), 10_000, lambda n: f"module m({','.join(f'input logic x{at}' for at in range(n))});\n"
              f"{OWN.format(1, 'a')}endmodule\n"),
}
# Without a dump.
ALONE = {
    "assertions of a file": (("import",), 20_000, lambda n: many(OWN, n, "a |-> b")),
    "declared signals": (("import",), 10_000, lambda n: within(many("logic v{};\n", n) + many(
        "p{0}: assert property (@(posedge clk) v{0});\n", n))),
}
KINDS = ((TEXTS, "t.sva", "--vcd plain.vcd --sva t.sva"), (DUMPS, "x.vcd", "--vcd x.vcd --sva one.sva"),
         (TEAMS, "t.sv", "--vcd plain.vcd --sv t.sv --scope tb --bound 5"),
         (ALONE, "t.sv", "--sv t.sv --scope tb --bound 5"))


def used(program, words):
    """The seconds of a processor and the megabytes that a command takes, and its status."""
    run = subprocess.Popen([program, *words.split()], stdin=subprocess.DEVNULL, stdout=subprocess.DEVNULL,
                           stderr=subprocess.DEVNULL)
    _, status, of = os.wait4(run.pid, 0)
    run.returncode = os.waitstatus_to_exitcode(status)
    return of.ru_utime + of.ru_stime, of.ru_maxrss / 1024, run.returncode


def words_of(command, words):
    if command == "names":
        return "names --vcd x.vcd"
    if command == "import":
        return f"import {words.replace('--sv ', '')}"
    return f"{command} {words}{' --workers 1' * (command == 'check')}"


def growth(shell, command, file, words, size, made):
    """How many times as much twice the input takes, time and memory; a run that doesn't end by itself takes no end."""
    taken = []
    for count in (size, 2 * size):
        with open(file, "w") as it:
            it.write(made(count))
        taken.append(min(used(shell.program, words_of(command, words)) for _ in range(2)))
    (seconds, megabytes, one), (later, more, other) = taken
    if {one, other} - {0, 1, 2}:
        return float("inf"), float("inf")
    return later / max(seconds, LEAST_SECONDS), more / max(megabytes, LEAST_MEGABYTES)


def try_shape(shell, name, *how):
    """What grows faster does so each time; a busy machine may make it seem so."""
    for _ in range(3):
        time, memory = growth(shell, *how)
        if max(time, memory) < MOST:
            break
    shell.tally.note(f"{name}: {time:.1f} times as long, {memory:.1f} times the memory", True, max(time, memory) < MOST)


def try_wrong_scopes(shell):
    """Names that stand for nothing beside 100,000 variables: the one that is meant, within seconds of a processor."""
    lines = many("$var wire 1 v{0} sig_{0} $end\n", 100_000)
    with open("x.vcd", "w") as dump, open("t.sva", "w") as text:
        dump.write(declared(lines))
        text.write(many("r{0}: assert property (@(posedge tb.clk) top.sig_{0} |-> tb.sig_{0}x);\n", 20))
    status, out, _ = shell.run("lint --vcd x.vcd --sva t.sva")
    meant = [f"top.sig_{at}; did you mean tb.sig_{at}?".encode() in out for at in range(20)]
    shell.tally.note("names that are meant", (2, [True] * 20), (status, meant))
    seconds = used(shell.program, "lint --vcd x.vcd --sva t.sva")[0]
    shell.tally.note(f"names that are meant: {seconds:.1f} seconds", True, seconds < MOST_SECONDS)


def try_doubled_sequences(shell):
    """A sequence of 2^38 booleans that a thousand assertions use: the first are too heavy, for the others no work is
    left, and who took the most is told."""
    with open("t.sv", "w") as text:
        text.write(doubled("sequence s{0}; s{1} or s{1}; endsequence\n", 39) + "sequence s0; a; endsequence\n"
                   + many("p{0}: assert property (@(posedge clk) s38);\n", 1000))
    status, out, said = shell.run("import t.sv")
    lines = said.decode().splitlines()
    heavy, much = (sum(it.split(" ", 3)[3].startswith(code) for it in lines) for code in ("TooHeavy:", "TooMuch:"))
    told = any(it.startswith("t.sv:40:1: refused p999 TooMuch: ") for it in lines)
    shell.tally.note("doubled sequences", (2, b"", 1000, True, True),
                     (status, out, heavy + much, 0 < heavy < 100, told))
    seconds, megabytes, _ = used(shell.program, "import t.sv")
    shell.tally.note(f"doubled sequences: {seconds:.1f} seconds, {megabytes:.0f} megabytes", (True, True),
                     (seconds < MOST_SECONDS, megabytes < MOST_MEGABYTES))


def try_scaling(shell):
    os.chdir(shell.folder)
    try_wrong_scopes(shell)
    try_doubled_sequences(shell)
    for name, data in (("plain.vcd", HEAD + CLOCKS), ("one.sva", RULE.format(1, "tb.a"))):
        with open(name, "w") as it:
            it.write(data)
    for shapes, file, words in KINDS:
        for shape, (commands, size, made) in shapes.items():
            for command in commands:
                try_shape(shell, f"{command}: twice as much of {shape}", command, file, words, size, made)
    os.chdir("/")


if __name__ == "__main__":
    sys.exit("outside imports it")
