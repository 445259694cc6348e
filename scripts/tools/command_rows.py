"""What commands answer where a file or a device ends early, and by which words, by the built program: reports by teams
and windows of many sizes, dumps and devices that end at each byte, words, and files of bytecode with each fault.

`outside` imports it. What must come was worked out by hand: lines, statuses and their order from docs/REFUSALS.md,
reports from IEEE 1800-2017 (16.9, 16.12) by arithmetic on the numbers of the ticks, dumps that end early from IEEE
1364-2005 (18.2), files of bytecode from what the docs and `bytecode_cases` tell of their form, and a file for GTKWave
from the form of its version 3.3. Of files of bytecode two models are asked as well, which share no code with svamon.
"""
import copy
import os
import re
import resource
import socket
import sys

sys.path.append(f"{os.path.dirname(os.path.realpath(__file__))}/../models")
from bytecode_cases import FIRST, SMALL, accepting_first, answer, in_version_2
from verifier_model import answer_to, decode, faults_of

# One tick, at which x is 1 and y is 0; and what `x |-> y` comes to there, and over no tick.
DUMP = ("$timescale 1ns $end\n$scope module top $end\n$var wire 1 ! clk $end\n$var wire 1 \" x $end\n"
        "$var wire 1 # y $end\n$upscope $end\n$enddefinitions $end\n#0\n0!\n1\"\n0#\n#5\n1!\n#10\n0!\n")
TEXT = "r: assert property (@(posedge top.clk) top.x |-> top.y);\n"
MISSING = "no such file or folder"
LIMITS = "history 0 stack 1 attempts 1 obligations 1 budget 14\n"


def report(clocks, monitors):
    """A report: of each monitor its name, the five counts, and the starts and clocks of its failures."""
    kinds = ("holds", "vacuous", "fails", "disabled", "open")
    count = lambda counts: " ".join(f"{kind} {it}" for kind, it in zip(kinds, counts))
    lines = ["svamon 1", f"clocks {clocks}"]
    for name, counts, failures in monitors:
        lines.append(f"monitor {name} {count(counts)}")
        lines += [f"fail {name} start {start} clock {clock}" for start, clock in failures]
    total = [sum(counts[at] for _, counts, _ in monitors) for at in range(5)]
    return "\n".join([*lines, f"total {count(total)}", ""]).encode()


ONE_TICK = report(1, [("r", (0, 0, 1, 0, 0), [(0, 0)])])
NO_TICK = report(0, [("r", (0, 0, 0, 0, 0), [])])

# Eight assertions over 2,000 ticks, at which s_0 to s_7 are the bits of the tick's number, and their counts.
TICKS = 2000
EIGHT = (
    ("m0", "s_0 |=> !s_0", (999, 1000, 0, 0, 1)),
    ("m1", "s_1 && s_0 |=> !s_1", (499, 1500, 0, 0, 1)),
    ("m2", "s_2 && s_1 |-> ##[1:2] !s_2", (498, 1500, 0, 0, 2)),
    ("m3", "s_3 && s_2 |-> ##[1:4] !s_3", (496, 1500, 0, 0, 4)),
    ("m4", "s_4 && s_3 |-> ##[1:7] !s_4", (434, 1504, 62, 0, 0)),
    ("m5", "s_0 ##1 s_1 |-> s_1", (500, 1499, 0, 0, 1)),
    ("m6", "s_6[*2] |=> s_6", (944, 1039, 15, 0, 2)),
    ("m7", "disable iff (s_7) s_0 |-> ##2 s_0", (504, 512, 0, 984, 0)),
)
TEAMS = ((1, 1), (1, 1000), (8, 1), (8, 1000), (3, 400), (64, 65_536), (2, 2000), (5, 1999), (7, 250))

# Over 48 ticks, by counting on fingers: the one that fails began at 24, and s_4 stays 1 up to 31.
FEW = 48
FEW_LINES = (
    b"monitor m0 holds 23 vacuous 24 fails 0 disabled 0 open 1\n",
    b"monitor m1 holds 11 vacuous 36 fails 0 disabled 0 open 1\n",
    b"monitor m4 holds 7 vacuous 40 fails 1 disabled 0 open 0\nfail m4 start 24 clock 31\n",
    b"monitor m7 holds 23 vacuous 24 fails 0 disabled 0 open 1\n")


def put(shell, name, data):
    with open(f"{shell.folder}/{name}", "wb") as file:
        file.write(data if isinstance(data, bytes) else data.encode())


def held(shell, name):
    with open(f"{shell.folder}/{name}", "rb") as file:
        return file.read()


def counting_dump(count):
    """A dump of the eight signals over so many ticks."""
    made = "".join(f"$var wire 1 s{bit} s_{bit} $end\n" for bit in range(8))
    ticks = (f"#{tick}0\n0!\n" + "".join(f"{tick >> bit & 1}s{bit}\n" for bit in range(8)) + f"#{tick}5\n1!\n"
             for tick in range(count))
    return f"$var wire 1 ! clk $end\n{made}$enddefinitions $end\n{''.join(ticks)}"


def failures_of(name):
    """Where the attempts of one of the eight began that failed, and where they were decided."""
    bit = lambda tick, at: tick >> at & 1
    if name == "m4":
        return [(it, it + 7) for it in range(TICKS - 7)
                if bit(it, 3) and all(bit(it + later, 4) for later in range(8))]
    if name == "m6":
        return [(it, it + 2) for it in range(TICKS - 2) if bit(it, 6) and bit(it + 1, 6) and not bit(it + 2, 6)]
    return []


def try_teams(shell):
    """Reports by teams and windows of many sizes, of all eight and of the bytecode of one."""
    put(shell, "eight.vcd", counting_dump(TICKS))
    put(shell, "eight.sva", "".join(f"{name}: assert property (@(posedge clk) {body});\n" for name, body, _ in EIGHT))
    monitors = [(name, counts, failures_of(name)) for name, _, counts in EIGHT]
    shell.expect("judge --vcd eight.vcd --sva eight.sva", 1, report(TICKS, monitors))
    shell.expect("build --vcd eight.vcd --sva eight.sva --name m4 --out m4.svm", 0)
    for workers, window in TEAMS:
        team = f"--workers {workers} --window {window}"
        shell.expect(f"check --vcd eight.vcd --sva eight.sva {team}", 1, report(TICKS, monitors))
        shell.expect(f"run --vcd eight.vcd --code m4.svm {team}", 1, report(TICKS, monitors[4:5]))
    put(shell, "few.vcd", counting_dump(FEW))
    status, few, said = shell.run("judge --vcd few.vcd --sva eight.sva")
    shell.tally.note("few ticks", (1, [True] * 4, b""), (status, [it in few for it in FEW_LINES], said))
    for team in ("--workers 8 --window 1", "--workers 3 --window 7", "--workers 64 --window 5"):
        shell.expect(f"check --vcd few.vcd --sva eight.sva {team}", 1, few)


def told_of_beginning(end):
    """The status, the report and the line for the dump's bytes up to one."""
    *lines, last = DUMP[:end].split("\n")
    row, fault = len(lines) + 1, lambda code: (2, b"", f"svamon: {code}\n".encode())
    word, *rest = last.split() or [""]
    if last == "$end":
        return fault(f"V1 BadToken {row}")
    if row <= 7 and last and not last.endswith("$end"):
        # What has all it wants but its $end takes no other word; a section that is skipped takes any.
        wants = {"$scope": 3, "$upscope": 1, "$enddefinitions": 1}
        is_other = rest and wants.get(word) == len(last.split()) - 1
        return fault(f"V1 BadToken {row}" if is_other else f"V4 UnclosedSection {row}")
    if row < 7 or row == 7 and not last or last in ("0", "1"):
        return fault("V6 Truncated")
    if last in ("#", "#1"):
        return fault(f"V1 BadToken {row}" if last == "#" else f"V3 TimeBack {row}")
    ticked = row > 13 or last == "1!"
    return (1, ONE_TICK, b"") if ticked else (0, NO_TICK, b"")


def try_short_dumps(shell):
    """The dump, ended at each byte, by each command that reads one."""
    commands = ("check --workers 1 --sva row.sva", "judge --sva row.sva", "run --workers 1 --code row.svm")
    for end in range(len(DUMP) + 1):
        put(shell, "short.vcd", DUMP[:end])
        words = f"{commands[end % 3]} --vcd short.vcd"
        shell.tally.note(f"{words} of {end} bytes", told_of_beginning(end), shell.run(words))


def cut_at(shell, words, size):
    """The status, what a file holds that may have so many bytes, and what is told."""
    limits = resource.getrlimit(resource.RLIMIT_FSIZE)
    with open(f"{shell.folder}/cut.txt", "wb") as out:
        resource.setrlimit(resource.RLIMIT_FSIZE, (size, limits[1]))
        try:
            # Python ignores the signal that such a file brings, and so does what inherits that.
            status, _, said = shell.run(words, stdout=out, restore_signals=False)
        finally:
            resource.setrlimit(resource.RLIMIT_FSIZE, limits)
    return status, held(shell, "cut.txt"), said


def try_cut_answers(shell):
    """A report and the line of limits on devices that fail after each byte, and longer texts at some."""
    cut = b"svamon: G1 Write\n"
    one = ("check --workers 1 --vcd row.vcd --sva row.sva", "judge --vcd row.vcd --sva row.sva",
           "run --workers 1 --vcd row.vcd --code row.svm")
    for size in range(len(ONE_TICK) + 1):
        wanted = (4, ONE_TICK[:size], cut) if size < len(ONE_TICK) else (1, ONE_TICK, b"")
        shell.tally.note(f"{one[size % 3]} up to {size}", wanted, cut_at(shell, one[size % 3], size))
    for size in range(len(LIMITS) + 1):
        wanted = (4, LIMITS[:size].encode(), cut) if size < len(LIMITS) else (0, LIMITS.encode(), b"")
        shell.tally.note(f"verify up to {size}", wanted, cut_at(shell, "verify row.svm", size))
    for words in ("rules --axi ports.txt", "check --vcd eight.vcd --sva eight.sva", "names --vcd eight.vcd",
                  "explain --vcd eight.vcd --sva eight.sva", "lint --vcd eight.vcd --sva eight.sva", "--version"):
        status, whole, said = shell.run(words)
        for size in (1, len(whole) // 2, len(whole) - 1, len(whole)):
            wanted = (4, whole[:size], cut) if size < len(whole) else (status, whole, said)
            shell.tally.note(f"{words} up to {size}", wanted, cut_at(shell, words, size))


# Where stretches of the smallest program's file begin and end.
SIGNALS, SAMPLE, ANTECEDENT, CONSEQUENT = (31, 49), (51, 64), (80, 89), (105, 114)


def changed(stretch, data):
    """The file with these bytes, in hexadecimal digits, in the place of a stretch, or from a byte on."""
    data = bytes.fromhex(data)
    begin, end = stretch if isinstance(stretch, tuple) else (stretch, stretch + len(data))
    return SMALL[:begin] + data + SMALL[end:]


# Files that are no program: where they differ from the smallest one's, in what, and the line.
NO_PROGRAMS = (
    (0, "00", "B1 Magic"), (3, "4e", "B1 Magic"), (4, "00", "B2 Version"), (4, "03", "B2 Version"),
    (4, "ff", "B2 Version"),
    (87, "30", "B4 BadOpcode 87"),  # a jump of sample code in a block
    (87, "44", "B4 BadOpcode 87"),  # a block of version 1 that accepts first
    (53, "04", "B4 BadOpcode 53"), (21, "0a", "B5 BadField 19"),  # a line feed as the name
    (33, "00", "B5 BadField 33"), (33, "81", "B5 BadField 33"), (114, "00", "B6 TrailingBytes 114"))

PUSH = "01 01" + "00" * 16

# Programs that may not run: what is wrong, where they differ, in what, and the line.
REFUSED = (
    ("two widths", SAMPLE, "0004 020001 0108" + "00" * 16 + "10 34", "F1 Operand 2"),
    ("an atom of nothing", SAMPLE, "0002 3200 34", "F2 Underflow 0"),
    ("1,025 operands", SAMPLE, "0401" + PUSH * 1025, "F3 Overflow 1024"),
    ("a target after the sample code", SAMPLE, "0002 300002 34", "F4 JumpRange 0"),
    ("a target after its block", ANTECEDENT, "01 0003 40000003 42 43", "F4 JumpRange 0"),
    ("sample code that jumps to itself", SAMPLE, "0002 300000 34", "F5 BackwardJump 0"),
    ("a block that jumps to itself", ANTECEDENT, "01 0003 40000000 42 43", "F5 BackwardJump 0"),
    ("two lists at 3", SAMPLE, "0004 020001 310003 020001 34", "F6 JoinMismatch 3"),
    ("a jump over 2", SAMPLE, "0004 020001 300003 020001 34", "F7 Unreached 2"),
    ("sample code with no end", SAMPLE, "0001 020001", "F8 NoHalt"),
    ("no sample code", SAMPLE, "0000", "F8 NoHalt"),
    ("a block with no end", ANTECEDENT, "01 0002 42 42", "F8 NoHalt"),
    ("a slot that isn't there", SAMPLE, "0002 020003 34", "F9 SlotRange 0"),
    ("an atom that isn't there", SAMPLE, "0003 020001 3202 34", "F9 SlotRange 1"),
    ("a start that isn't there", ANTECEDENT, "00", "F9 SlotRange 0"),
    ("a disabling atom that isn't there", (17, 18), "02", "F9 SlotRange 0"),
    ("a tick back", SAMPLE, "0003 0300010001 3200 34", "F10 HistoryTooShort 1"),
    ("no operand", 7, "0000", "F11 StackTooShort 1"),
    ("a block that enters itself", ANTECEDENT, "01 0002 4100 43", "F12 Cycle 0"),
    ("no attempt", 9, "0000", "F13 PoolTooSmall attempts 1"),
    ("no obligation", 11, "0000", "F13 PoolTooSmall obligations 1"),
    ("two positions, one attempt", ANTECEDENT, "02 0003 40000002 4101 43 0003 40010005 42 43",
     "F13 PoolTooSmall attempts 2"),
    ("a cost of 14", 16, "0d", "F14 BudgetTooSmall 14"),
    ("history", 5, "1001", "F15 LimitTooLarge history"), ("stack", 7, "0401", "F15 LimitTooLarge stack"),
    ("attempts", 9, "0401", "F15 LimitTooLarge attempts"),
    ("obligations", 11, "0401", "F15 LimitTooLarge obligations"),
    ("budget", 13, "01000001", "F15 LimitTooLarge budget"), ("atoms", 18, "80", "F15 LimitTooLarge atoms"),
    ("slots", SIGNALS, "0100" + "01000178" * 256, "F15 LimitTooLarge slots"),
    ("sample code", SAMPLE, "1001" + "34" * 4097, "F15 LimitTooLarge sample"),
    ("positions", ANTECEDENT, "80" + "000143" * 128, "F15 LimitTooLarge antecedent positions"),
    ("code", ANTECEDENT, "01 1001" + "43" * 4097, "F15 LimitTooLarge antecedent code"),
    ("positions", CONSEQUENT, "80" + "000143" * 128, "F15 LimitTooLarge consequent positions"),
    ("code", CONSEQUENT, "01 1001" + "43" * 4097, "F15 LimitTooLarge consequent code"),
)

# The most of each limit, and the line of the limits.
ACCEPTED = (
    (5, "0000", LIMITS), (5, "1000", LIMITS.replace("history 0", "history 4096")),
    (7, "0400", LIMITS.replace("stack 1", "stack 1024")),
    (9, "0400", LIMITS.replace("attempts 1", "attempts 1024")),
    (11, "0400", LIMITS.replace("obligations 1", "obligations 1024")),
    (13, "01000000", LIMITS.replace("budget 14", "budget 16777216")))


def said_by_models(data):
    """What the models of `answers_bytecode` say of a file."""
    if answer(data) != "program":
        return answer(data)
    program = decode(data)
    return answer_to(program, faults_of(program))


def try_bytecode_faults(shell):
    """Files of bytecode that are refused, by each command that reads one, and some that are accepted."""
    files = [(changed(at, data), line) for at, data, line in NO_PROGRAMS]
    files += [(SMALL[:end], f"B3 Truncated {end}") for end in range(len(SMALL))]
    files += [(changed(at, data), line) for _, at, data, line in REFUSED]
    files += [(accepting_first(in_version_2(SMALL), 1), "F16 AcceptKind 1")]
    for place, (data, line) in enumerate(files):
        put(shell, "bad.svm", data)
        shell.tally.note(f"the models' {line}", line, said_by_models(data))
        shell.expect("verify bad.svm", 2, line=f"svamon: {line}")
        if line[:2] != "B3" or place % 8 == 0:
            shell.expect("run --vcd row.vcd --code bad.svm", 2, line=f"svamon: {line}")
            told = "" if line[0] == "F" else f"svamon: {line}"
            shell.expect("upgrade bad.svm --out up.svm", 2 if told else 0, line=told)
    for at, data, line in ACCEPTED:
        put(shell, "good.svm", changed(at, data))
        shell.expect("verify good.svm", 0, line.encode())
        shell.expect("run --vcd row.vcd --code good.svm", 1, ONE_TICK)
    put(shell, "first.svm", FIRST)
    shell.expect("run --vcd row.vcd --code first.svm", 1, ONE_TICK)


def try_upgrades(shell):
    """Files in version 2: the fifth byte, and the report; what may not run is upgraded, what is no program isn't."""
    second = in_version_2(SMALL)
    shell.expect("upgrade row.svm --out up.svm", 0)
    shell.expect("upgrade up.svm --out again.svm", 0)
    shell.tally.note("upgraded twice", (second, second), (held(shell, "up.svm"), held(shell, "again.svm")))
    shell.expect("run --vcd row.vcd --code again.svm", 1, ONE_TICK)
    put(shell, "poor.svm", changed(16, "0d"))
    shell.expect("upgrade poor.svm --out up.svm", 0)
    shell.expect("verify up.svm", 2, line="svamon: F14 BudgetTooSmall 14")
    put(shell, "up.svm", b"as before")
    put(shell, "bad.svm", SMALL[:113])
    shell.expect("upgrade bad.svm --out up.svm", 2, line="svamon: B3 Truncated 113")
    shell.tally.note("no upgrade", b"as before", held(shell, "up.svm"))


# Dumps that a program's clock or signals don't fit, with what is told; and before that what is wrong with the program.
ENDED = "$enddefinitions $end\n"
UNBOUND = (
    ("", "V6 Truncated", "V6 Truncated"),
    ("$var wire 1 x top.x $end $var wire 1 y top.y $end ", "C1 NoClock", "F14 BudgetTooSmall 14"),
    ("$var wire 2 ! top.clk $end $var wire 1 y top.y $end ", "C2 ClockWidth", "F14 BudgetTooSmall 14"),
    ("$var wire 1 ! top.clk $end $var wire 2 y top.y $end ", "C4 NoSignal top.x", "F14 BudgetTooSmall 14"),
    ("$var wire 1 ! top.clk $end $var wire 1 x top.x $end $var wire 2 y top.y $end ", "C5 SignalWidth top.y",
     "F14 BudgetTooSmall 14"))


def try_order(shell):
    """Of several faults of a run or a check the first in the order of the docs."""
    for declared, line, poor in UNBOUND:
        put(shell, "unbound.vcd", declared + ENDED if declared else "")
        for code, wanted in (("row", line), ("poor", poor), ("bad", "B3 Truncated 113" if declared else line)):
            shell.expect(f"run --vcd unbound.vcd --code {code}.svm", 2, line=f"svamon: {wanted}")
    put(shell, "two.sva", TEXT.replace("top.y", "top.z") + "q: assert property (@(posedge top.clk) top.x == '0);\n")
    at = len(TEXT) + 48
    for words, line in (
            ("--vcd empty.vcd --sva two.sva", "V6 Truncated"), ("--vcd row.vcd --sva two.sva", f"L1 BadCharacter {at}"),
            ("--vcd no_clock.vcd --sva no_name.sva", "Y1 UnknownName 49"),
            ("--vcd no_clock.vcd --sva r.sva", "C1 NoClock"),
            ("--vcd empty.vcd --sva r.sva --axi x1.txt", "X1 BadWidth")):
        for command in ("check", "judge"):
            shell.expect(f"{command} {words}", 2, line=f"svamon: {line}")
    shell.expect("check --vcd empty.vcd --sva r.sva --only z", 2, line="svamon: N1 NoAssertion z")
    shell.expect("check --vcd no_clock.vcd --sva many.sva", 2, line="svamon: C1 NoClock")


def try_paths(shell):
    """Paths that would end the line, and a file that can't be opened for a reason without words."""
    put(shell, "odd\n.sva", b"// \xe9\n")
    shell.unusable(["check", "--vcd", "a\nb.vcd", "--sva", "r.sva"], "a\\nb.vcd", MISSING)
    shell.unusable(["judge", "--vcd", "row.vcd", "--sva", "a\tb\x1b"], "a\\tb\\u{1b}", MISSING)
    shell.expect(["judge", "--vcd", "row.vcd", "--sva", "odd\n.sva"], 2, line="svamon: N2 NotText odd\\n.sva")
    with socket.socket(socket.AF_UNIX) as it:
        it.bind(f"{shell.folder}/socket")
        for words in ("check --vcd socket --sva r.sva", "verify socket"):
            shell.expect(words, 4, line="svamon: file socket")
    os.symlink("round", f"{shell.folder}/round")
    shell.unusable("verify round", "round", "its links lead round")
    shell.unusable(f"verify {'n' * 300}", "n" * 300, "its name is too long")


ROOM = 64 << 20


def little_memory():
    resource.setrlimit(resource.RLIMIT_AS, (ROOM, ROOM))


def try_little_memory(shell):
    """Files that don't fit in memory, by each command that reads one."""
    with open(f"{shell.folder}/large", "wb") as file:
        file.truncate(4 * ROOM)
    for words in ("check --sva r.sva --vcd", "judge --vcd d.vcd --sva", "run --code p.svm --vcd", "verify",
                  "names --vcd", "rules --axi", "import"):
        shell.expect(f"{words} large", 3, line="svamon: OutOfMemory", preexec_fn=little_memory)
    os.unlink(f"{shell.folder}/large")


# Words that are refused, whatever the files are.
REFUSED_WORDS = (
    "names", "names --vcd a --match b --match c",
    "check --vcd a --sva b --only", "check --vcd a --sva b --keep-going x",
    "judge --vcd a --sva b --only x", "judge --vcd a --sva b --junit c", "judge --vcd v --sv a",
    "judge --vcd a --sva b --workers 2", "check --vcd a --vcd b --sva c", "check --vcd a --sva b --workers x",
    "check --vcd a", "check --sva b", "check --vcd a --sva b --json", "check --vcd a --sva b c", "check --vcd v --sv",
    "check --vcd a --sva b --window 0", "check --vcd a --sva b --window 65537", "check --vcd a --sva b --workers 0",
    "check --vcd a --sva b --workers 65", "check --vcd a --sva b --window -1", "run --vcd a --code b --workers 65",
    "run --vcd a --code b --workers 0", "run --vcd a --code b --window 0", "run --vcd a --code b --window 65537",
    "run --vcd a", "run --code a", "lint --vcd a", "lint --sva a", "lint --vcd v --clock c",
    "lint --vcd v --sva a --split", "lint --vcd a --sva b --only c",
    "explain --vcd a --sva b --start x", "explain --vcd a --sva b --most 0",
    "explain --vcd a --sva b --most 65537", "explain --vcd a --sva b --start", "explain --vcd v --axi a --scope t",
    "check --vcd v --sv a --sva b", "check --vcd v --sv a --axi b", "check --vcd v --sva a --bound 3",
    "check --vcd v --sv a --bound 128", "import", "import a --bound 0", "import a --bound 128", "import a --sva b",
    "verify", "verify a b", "upgrade a", "upgrade --out a", "upgrade a b --out c", "rules", "rules --axi a --axi b",
    "build --vcd a --sva b --name c", "build --vcd a --sva b --out c", "build --vcd a --name b --out c",
    "chek", "Check")


def three_ticks(bound):
    """A dump of three ticks at which x is 1 and y is 0, below `top` and below `top.in`."""
    one = lambda code, name: f"$var wire 1 {code} {name} $end\n"
    return (f"$scope module top $end\n{one('!', 'clk')}{one('x', 'x')}{one('y', 'y')}{one('k', 'clk_in')}"
            f"$scope module in $end\n{one('x', 'x')}{one('!', 'clk')}$upscope $end\n$upscope $end\n{ENDED}"
            + "#0\n0!\n1x\n0y\n0k\n" + "".join(f"#{10 * at + 5}\n1!\n#{10 * at + 10}\n0!\n" for at in range(bound)))


TWO = TEXT + "s: assert property (@(posedge top.clk) top.y);\n"

# Words of `explain`, and the attempts of which is told: of each assertion the first, if nothing else is said.
EXPLAINED = (
    ("", "r0 s0"), ("--most 1", "r0 s0"), ("--most 2", "r0 r1 s0 s1"), ("--most 65536", "r0 r1 r2 s0 s1 s2"),
    ("--only s", "s0"), ("--only s --only r --most 2", "r0 r1 s0 s1"), ("--only ? --start 1", "r1 s1"),
    ("--only r --start 2 --most 7", "r2"), ("--start 0 --keep-going", "r0 s0"))

# Words of `names`, and the paths that are told.
NAMED = (
    ("", "top.clk top.x top.y top.clk_in top.in.x top.in.clk"), ("--match clk", "top.clk top.clk_in top.in.clk"),
    ("--scope top.in", "top.in.x top.in.clk"), ("--match clk --scope top.in", "top.in.clk"))

# Two files of a team, by macros that the words define. The assertion of another clock than that of the words is
# refused, which is status 1 of an import, and 2 of what checks, explains or lints.
TEAM = (b"`ifdef Y\na: assert property (@(posedge clk) x == `X |-> ##[1:$] y);\n`endif\n",
        b"b: assert property (@(posedge clk_in) x);\n`ifdef N\nn: assert property (@(posedge clk) y);\n`endif\n"
        b"c: assert property (@(posedge clk) x |-> y);\n")
TEAM_WORDS = "--define X=1'b1 --scope top --bound 100 --define Y --clock top.clk"
WRITTEN = (b"a: assert property (@(posedge top.clk) top.x == 1'd1 |-> ##[1:100] top.y);\n"
           b"c: assert property (@(posedge top.clk) top.x |-> top.y);\n")


def try_words(shell):
    """Words that are refused, and what others bring about."""
    for words in REFUSED_WORDS:
        shell.begins(words, b"error: ")
    put(shell, "three.vcd", three_ticks(3))
    put(shell, "two.sva", TWO)
    for words, wanted in EXPLAINED:
        status, out, said = shell.run(f"explain --vcd three.vcd --sva two.sva {words}".strip())
        found = " ".join(name + at for name, at in re.findall(r"(?m)^FAIL (\w+) .*began at clock (\d+)", out.decode()))
        shell.tally.note(f"explain {words}", (1, wanted, b""), (status, found, said))
    for words, wanted in NAMED:
        status, out, said = shell.run(f"names --vcd three.vcd {words}".strip())
        shell.tally.note(f"names {words}", (0, wanted.split(), b""),
                         (status, [line.split()[0] for line in out.decode().splitlines()], said))
    try_team_words(shell)
    try_port_words(shell)


def try_team_words(shell):
    """The words of a team's files, by each command that takes them."""
    for name, text in zip("ab", TEAM):
        put(shell, f"{name}.sv", text)
    status, out, said = shell.run(f"import a.sv --vcd three.vcd {TEAM_WORDS} b.sv")
    shell.tally.note(f"import: {said}", (1, WRITTEN.split()), (status, out.split()))
    over = f"--sv a.sv --vcd three.vcd {TEAM_WORDS} --sv b.sv"
    fails = report(3, [("c", (0, 0, 3, 0, 0), [(0, 0), (1, 1), (2, 2)])])
    waits = report(3, [("a", (0, 0, 0, 0, 3), [])])
    for only, wanted in (("a", waits), ("c", fails), ("[ac]", b"")):
        found = shell.run(f"check {over} --only {only} --workers 2 --window 1")
        shell.tally.note(f"check {over} --only {only}", (2, wanted), found[:2])
    status, out, said = shell.run(f"explain {over} --start 1 --most 3")
    shell.tally.note(f"explain {over}", (2, [b"c"]), (status, re.findall(rb"(?m)^FAIL (\w+) ", out)))
    status, out, said = shell.run(f"lint {over}")
    shell.tally.note(f"lint {over}", (2, b"0 of 2 items refused"), (status, (out.splitlines() or [b""])[-1]))
    put(shell, "heavy.sv", "r: assert property (@(posedge clk) x |-> (##[1:90] y) and ##[1:80] x);\n")
    status, out, said = shell.run("check --vcd three.vcd --sv heavy.sv --scope top --split")
    shell.tally.note(f"check --split: {said}", (0, [b"r__1", b"r__2"]), (status, re.findall(rb"monitor (\w+)", out)))


def try_port_words(shell):
    """One rule of a port, built and run, with a text beside the ports and without."""
    whole = shell.report("axi_port").decode().splitlines()
    name, counts = re.match(r"monitor (\w+) (.*)", next(it for it in whole if it.startswith("monitor m_"))).groups()
    wanted = [*whole[:2], *(it for it in whole if it.split()[1] == name), f"total {counts}"]
    for text in ("--sva axi.sva ", ""):
        shell.expect(f"build --vcd axi.vcd {text}--axi ports.txt --name {name} --out rule.svm", 0)
        shell.expect("run --code rule.svm --vcd axi.vcd", 1 if " fails 0 " not in counts else 0,
                     "\n".join([*wanted, ""]).encode())


# Words in a folder, with the path that is read and would be written over, or would be written twice, or none: by what
# is left of paths where parts that lead nowhere are taken off. DIR is the folder's path.
CLASHES = (
    ("check --vcd a --sva b --json c", "", ""), ("check --vcd a --sva b --json a", "a", ""),
    ("check --vcd a --sva c.sva --sva b --html b", "b", ""), ("check --vcd a --axi p --junit p", "p", ""),
    ("check --vcd a --sv s --junit s", "s", ""), ("explain --vcd a --sv s --gtkw d/../s", "d/../s", ""),
    ("check --vcd a --sva b --json ./a", "./a", ""), ("check --vcd d/a --sva b --json d//./a", "d//./a", ""),
    ("check --vcd a --sva b --json d/../a", "d/../a", ""), ("check --vcd ../a --sva b --json ../a", "../a", ""),
    ("check --vcd w --sva b --json ../w", "", ""), ("check --vcd ../../w --sva b --json ../w", "", ""),
    ("check --vcd DIR/a --sva b --json c", "", ""), ("check --vcd DIR/a --sva b --json /..DIR/a", "/..DIR/a", ""),
    ("check --vcd d/v --sva b --json v", "", ""), ("check --vcd a --sva b --json c --html ./c", "", "c"),
    ("check --vcd a --sva b --json c --html d/e --junit d/e", "", "d/e"),
    ("explain --vcd a --sva b --gtkw c", "", ""), ("explain --vcd a --sva b --gtkw a", "a", ""),
    ("build --vcd a --sva b --name r --out ./b", "./b", ""), ("build --vcd a --sva b --name r --out c", "", ""),
    ("upgrade u --out u", "", ""), ("lint --vcd a --sva b", "", ""))


def try_clashes(shell):
    """Paths of files that are written, beside those that are read: what is read stays as it is."""
    inner = copy.copy(shell)
    inner.folder = f"{shell.folder}/up/in"
    os.makedirs(f"{inner.folder}/d")
    kept = {name: DUMP for name in ("a", "w", "d/a", "d/v", "../a", "../../w")}
    kept |= {"b": TEXT, "c.sva": TEXT.replace("r:", "q:"), "s": TEXT.replace("top.", ""), "u": SMALL}
    for name, data in kept.items():
        put(inner, name, data)
    put(inner, "p", held(shell, "ports.txt"))
    before = {name: held(inner, name) for name in [*kept, "p"]}
    for words, over, twice in CLASHES:
        words, over = (it.replace("DIR", inner.folder) for it in (words, over))
        if over or twice:
            what = f"the file '{over}' is read, and would be written over" if over else (
                f"the file '{twice}' would be written twice")
            inner.begins(words, f"error: {what}\n".encode())
        else:
            status = 1 if words.split()[0] in ("check", "explain") else 0
            found = inner.run(words)
            shell.tally.note(words, (status, b""), (found[0], found[2]))
        before["u"] = in_version_2(SMALL) if words.startswith("upgrade") else before["u"]
        shell.tally.note(f"{words}: kept", before, {name: held(inner, name) for name in before})


# A dump of two ticks, at which x is 1 and v of 8 bits is 3; a tick of its time is 10 ns.
TEN = ("$timescale 10 ns $end $scope module top $end $var wire 1 ! clk $end $var wire 1 x x $end "
       "$var reg 8 v v [7:0] $end $upscope $end $enddefinitions $end #0 0! 1x b11 v #5 1! #10 0! #15 1! ")
SAVED = ("[*] Failed attempts, by svamon explain\n[dumpfile] \"t.vcd\"\n[timestart] 50\n*-", ".000000 150 50 150"
         + " -1" * 24 + "\n@200\n-r  v.sva:1:1\n-A: began at clock 0 (#5)\n-B: decided at clock 1 (#15)\n"
         "@28\ntop.x\n@22\ntop.v[7:0]\n")


def try_saved(shell):
    """What GTKWave is to show of a failure, in the unit of the dump's time, with a vector."""
    put(shell, "t.vcd", TEN)
    put(shell, "v.sva", "r: assert property (@(posedge top.clk) top.x |-> ##1 top.v == 4);\n")
    status, out, said = shell.run("explain --vcd t.vcd --sva v.sva --gtkw t.gtkw")
    head = b"FAIL r  v.sva:1:1   began at clock 0 (#5), decided at clock 1 (#15); 1 failed attempt\n"
    shell.tally.note("explain", (1, head, b""), (status, out[:len(head)], said))
    found = held(shell, "t.gtkw").decode()
    begin, end = SAVED
    zoom = found[len(begin):-len(end)]
    shell.tally.note("the save file", (begin, True, end), (found[:len(begin)], zoom.isdigit(), found[-len(end):]))


def try_command_rows(shell):
    """All of these."""
    for name, data in (("row.vcd", DUMP), ("row.sva", TEXT), ("row.svm", SMALL)):
        put(shell, name, data)
    for part in (try_teams, try_short_dumps, try_cut_answers, try_bytecode_faults, try_upgrades, try_order, try_paths,
                 try_little_memory, try_words, try_clashes, try_saved):
        part(shell)
