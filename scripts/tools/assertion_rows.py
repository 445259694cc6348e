"""What assertions are made of, by the built program: weights and names of sequences, the code of small sequences, files
of programs, values of expressions and counters, why an attempt failed, and reports in other forms.

`outside` imports it.

What must come was worked out by hand: verdicts and values from IEEE 1800-2017, 16.8 to 16.12, weights and texts from
docs/USING.md, code and bytes from docs/DEFINITIONS.md ("Plans and tables", "Sections of sequences", "Spelling") and
from the table of codes of `bytecode_cases.py`, whose reader takes the files apart.
"""
import json
import os
import re
import sys

sys.path.append(f"{os.path.dirname(os.path.realpath(__file__))}/../models")
from bytecode_cases import listed

FRONT = "assert property (@(posedge clk) "
AT = len(f"r: {FRONT}")

# Signals of the dumps: a to f of one bit, and three vectors.
VECTORS = {"v": 2, "u": 128, "t": 129}


def put(shell, name, text):
    with open(f"{shell.folder}/{name}", "wb") as file:
        file.write(text if isinstance(text, bytes) else text.encode())


def dump(ticks):
    """A dump of ticks, each the values of some signals; the clock rises at 5, 15, 25 .."""
    wires = "".join(f"$var wire 1 {it} {it} $end\n" for it in "abcdef")
    wires += "".join(f"$var wire {width} {it} {it} $end\n" for it, width in VECTORS.items())
    body = ""
    for at, tick in enumerate(ticks):
        changes = "".join(f"b{value:b} {name}\n" for name, value in tick.items())
        body += f"#{10 * at}\n0!\n{changes}#{10 * at + 5}\n1!\n"
    return f"$var wire 1 ! clk $end\n{wires}$enddefinitions $end\n{body}"


def bits(digits):
    """A tick by digits of a, b, c .."""
    return {name: int(digit) for name, digit in zip("abcdef", digits)}


def rule(body, name="r"):
    return f"{name}: {FRONT}{body});\n"


def chain(count, first, step):
    """Named sequences: `s0` is the first, and each further one is made of the one before."""
    return "".join(f"sequence s{it} ; {step(f's{it - 1}') if it else first} endsequence\n" for it in range(count + 1))


def twice(name):
    return f"{name} ##1 {name}"


def either(name):
    return f"{name} or {name}"


TWICE, EITHER = chain(40, "a", twice), chain(64, "a[*0]", either)
LATER = "sequence p; q ##1 q endsequence sequence q; o ##1 o endsequence sequence o; a endsequence\n"

# Declarations, a sequence, and what it weighs.
WEIGHTS = (
    ("", "a", 1), ("", "a[*0]", 0), ("", "a[*127]", 127), ("", "a[*63] ##1 a[*63]", 127), ("", "##[1:126] b", 127),
    ("", "b ##2 c", 4), ("", "a ##[2:3] a", 5), ("", "a throughout b ##2 c", 4), ("", "a and b", 4), ("", "a or b", 2),
    ("", "(a throughout (b ##2 c)) and (d ##1 e)", 20), ("", "##[1:3] ((a and b) or c)", 8),
    ("", "a[*1:3] intersect (b ##[1:4] c)", 18), ("", "(a ##1 b)[*2:4]", 12),
    (TWICE, "s0", 1), (TWICE, "s1", 3), (TWICE, "s2", 7), (TWICE, "s6", 127), (EITHER, "s0", 0), (EITHER, "s8", 0),
    (LATER, "o", 1), (LATER, "q", 3), (LATER, "p", 7),
)

# A text of which the rule `r` stands last, and what a check tells of it: the code, and a byte after the rule's clock,
# or of the whole text where that is a word of it; nothing of what is judged.
TOLD = (
    ("", "a[*127] |-> a[*127]", "", 0), ("", "a[*127] or b |-> a", "Y9 TooWide", 0),
    ("", "a |-> a[*127] or b", "Y9 TooWide", 6), ("", "a[*64] ##1 a[*64] |-> b", "Y9 TooWide", 0),
    ("", "a |-> a[*128]", "P4 BadBound", 9), ("", "##[3:1] a |-> b", "P4 BadBound", 5),
    ("", "(##[3:1] a)[*0] or b |-> a", "P4 BadBound", 6),
    (TWICE, "s6 |-> b", "", 0), (TWICE, "s7 |-> b", "Y9 TooWide", 0), (TWICE, "s40 |-> b", "Y9 TooWide", 0),
    (TWICE, "a |-> s8", "Y9 TooWide", 6),
    (EITHER, "s64 |-> b", "Y5 Degenerate", 0), (EITHER, "a |-> b or s64", "Y6 AdmitsEmpty", 6),
    (EITHER, "s64 ##1 a |-> b", "", 0), (EITHER, "s64 or a[*127] |-> b", "", 0),
    (EITHER, "s64 or a[*127] or b |-> b", "Y9 TooWide", 0),
    ("sequence t; s ##1 s endsequence sequence u; a endsequence sequence s; s ##1 s endsequence\n", "u |-> t",
     "Y8 CyclicSequence", "s; s ##1 s"),
    ("sequence t; u endsequence sequence u; a endsequence\n", "t |-> u", "", 0),
    ("sequence t; a ##1 nobody endsequence\n", "a |-> b", "Y1 UnknownName", "nobody"),
    ("", "u[127] |-> u == 128'd0", "", 0), ("", "t == 0", "Y1 UnknownName", 0),
    ("", "u[128] |-> a", "Y4 SliceRange", 0), ("", "v[2:0] == 0", "Y4 SliceRange", 0),
    ("", "v[0:1] == 0", "Y4 SliceRange", 0),
)

# Ticks by digits of a, b, c .., a text, counts (holds, vacuous, fails, disabled, open) and the failures.
VERDICTS = (
    ("1 1 1 1 0", TWICE, "s2", (1, 0, 4, 0, 0), [(1, 4), (2, 4), (3, 4), (4, 4)]),
    ("10 10 10 10 10 11 00", TWICE, "s1 ##1 s1 |-> b", (1, 4, 2, 0, 0), [(0, 3), (1, 4)]),
    ("11 10 01", EITHER, "s64 ##1 a |-> b", (1, 1, 1, 0, 0), [(1, 1)]),
    ("1 1 1 0", LATER, "p", (0, 0, 4, 0, 0), [(0, 3), (1, 3), (2, 3), (3, 3)]),
    ("10 01 11 00", "", "a ##1 b", (1, 0, 3, 0, 0), [(1, 1), (2, 3), (3, 3)]),
    ("10 00 01 10 00 00", "", "a |-> a ##[1:2] b", (1, 4, 1, 0, 0), [(3, 5)]),
    ("110 001 110 000", "", "a |-> a and (b ##1 c)", (1, 2, 1, 0, 0), [(2, 3)]),
    ("10100 11110", "", "b |-> ((a ##1 b) intersect (c ##2 d)) or e", (0, 1, 1, 0, 0), [(1, 1)]),
    ("100 010", "", "a |-> ##1 b ##1 c", (0, 1, 0, 0, 1), []),
    ("100 011 010 000", "", "first_match(a ##[1:2] b) |-> c", (1, 3, 0, 0, 0), []),
    ("100 011 010 000", "", "a ##[1:2] b |-> c", (0, 3, 1, 0, 0), [(0, 2)]),
)

ONE = "[[Accept, Stop]]"

# A property, its atoms by the numbers of their slots, and the blocks of both sections. Slots are numbered from 1 in the
# order in which the signals are first written.
SECTIONS = (
    ("a ##1 b", "12", ONE, "[[Unless(0, 2), Enter(1), Stop], [Unless(1, 5), Accept, Stop]]"),
    ("a ##[1:2] b", "12", ONE, "[[Unless(0, 3), Enter(1), Enter(2), Stop], [Enter(2), Stop], "
     "[Unless(1, 8), Accept, Stop]]"),
    ("a and (b ##1 c)", "123", ONE, "[[Unless(0, 3), Unless(1, 3), Enter(1), Stop], [Unless(2, 6), Accept, Stop]]"),
    ("((a ##1 b) intersect (c ##2 d)) or e", "12345", ONE, "[[Unless(4, 2), Accept, Stop]]"),
    # the pairs that are met and can end: a beside b, the second a beside the first wait and beside c, the third and c
    ("a[*1:3] intersect (b ##[1:4] c)", "123", ONE,
     "[[Unless(0, 4), Unless(1, 4), Enter(1), Enter(2), Stop], [Unless(0, 7), Enter(3), Stop], "
     "[Unless(0, 11), Unless(2, 11), Accept, Stop], [Unless(0, 15), Unless(2, 15), Accept, Stop]]"),
    ("a |=> b", "12", "[[Unless(0, 2), Enter(1), Stop], [Accept, Stop]]", "[[Unless(1, 2), Accept, Stop]]"),
    ("first_match(a ##[1:2] b) |-> c", "123", "[[Unless(0, 3), Enter(1), Enter(2), Stop], [Enter(2), Stop], "
     "[Unless(1, 8), AcceptFirst, Stop]]", "[[Unless(2, 2), Accept, Stop]]"),
    # each boolean has an atom of its own, also where it is written twice
    ("a |-> b ##1 b", "122", "[[Unless(0, 2), Accept, Stop]]",
     "[[Unless(1, 2), Enter(1), Stop], [Unless(2, 5), Accept, Stop]]"),
)

# `r: .. top.x |-> top.y` at `top.clk`, field by field: the magic number, the version, the limits, no disabling atom,
# two atoms; the name, the clock; two signals, no counters; the sample code; and two sections of a block.
SMALLEST = bytes.fromhex(
    "5356414d 02 0000 0001 0001 0001 0000000e ff 02 0001 72 0007 746f702e636c6b"
    "0002 01 0005 746f702e78 01 0005 746f702e79 0000"
    "0005 020001 3200 020002 3201 34"
    "00000000000000000000000000000001 01 0003 40000002 42 43"
    "00000000000000000000000000000001 01 0003 40010002 42 43")
NO_POSITIONS = SMALLEST[:64] + bytes(34)

COUNTERS = ("counter n [2] add(v[1], v);\ncounter m [4] load(v == 1, 7) sub(v == 2, 3);\n"
            "counter k [2] clear(v == 3) add(1, 1);\ncounter j [2] sub(1, 1);\n")

# Over v = 1, 3, 2, 2 and u = 2^127, 1, 0, 0: at which clocks an expression is true.
VALUES = (
    ("$rose(v)", [0]), ("$fell(v)", [2]), ("$stable(v)", [3]), ("$changed(v)", [0, 1, 2]), ("$past(v) == 0", [0]),
    ("$past(v) == 1", [1]), ("$past(v, 2) == 0", [0, 1]), ("$past(v, 2) == 1", [2]), ("$past(v, 64)", []),
    ("$past(!v[1])", [1]), ("v[1]", [1, 2, 3]), ("v[1:0] == 2", [2, 3]), ("v[0:0]", [0, 1]), ("u[127]", [0]),
    ("u == 128'd1", [1]), ("$rose(u)", [1]), ("$fell(u)", [2]),
    ("n == 0", [0, 1]), ("n == 3", [2, 3]), ("m == 0", [0]), ("m == 7", [1, 2]), ("m == 4", [3]),
    ("$past(m) == 7", [2, 3]), ("k == 1", [1, 3]), ("$rose(k)", [1, 3]), ("k == 0", [0, 2]), ("j == 0", [0, 1, 2, 3]),
)

# A path with what JSON and XML must write in another way, and as they write it; a place has `\\n` for the line feed.
ODD = "a<b&\"\n\x01\uffff"
ODD_JSON, ODD_XML = b"a<b&\\\"\\n\\u0001\xef\xbf\xbf", b"a&lt;b&amp;&quot;&#10;\xef\xbf\xbd\xef\xbf\xbd"
PLACE_JSON, PLACE_XML = ODD_JSON.replace(b"\\n", b"\\\\n"), ODD_XML.replace(b"&#10;", b"\\n")

# Over x = 1, y = 1 at clock 1 alone, and w = 1 at clock 0 alone, n = 0 and d = 1 at clock 1: `late` fails at 2, holds
# at 1 and fails at 2, `waits` stays open, and `never` is vacuous, disabled and vacuous.
JUDGED = ("late: assert property (@(posedge clk) a |-> b or c ##2 d);\nwaits: assert property (@(posedge clk) ##3 a);\n"
          "never: assert property (@(posedge clk) disable iff (f) e |-> a);\n")
TICKS = ("101000", "110001", "100000")

JSON = b"""{"version":1,"dump":"d&.vcd","text":"TEXT","clocks":3,"assertions":[
{"name":"late","counts":{"holds":1,"vacuous":0,"fails":2,"disabled":0,"open":0},"failures":[
{"start":0,"start_time":5,"clock":2,"clock_time":25},{"start":2,"start_time":25,"clock":2,"clock_time":25}]},
{"name":"waits","counts":{"holds":0,"vacuous":0,"fails":0,"disabled":0,"open":3},"failures":[]},
{"name":"never","counts":{"holds":0,"vacuous":2,"fails":0,"disabled":1,"open":0},"failures":[]}],
"total":{"holds":1,"vacuous":2,"fails":2,"disabled":1,"open":3}REST}""".replace(b"\n", b"")

XML = b"""<?xml version="1.0" encoding="UTF-8"?>
<testsuites>
<testsuite name="d&amp;.vcd" tests="3" failures="1" errors="0" skipped="1">
<properties>
<property name="clocks" value="3"/>
</properties>
<testcase name="late" classname="TEXT">
<failure type="assertion" message="failed attempts: 2">
began at clock 0 (#5), decided at clock 2 (#25)
began at clock 2 (#25), decided at clock 2 (#25)
</failure>
<system-out>holds 1 vacuous 0 fails 2 disabled 0 open 0</system-out>
</testcase>
<testcase name="waits" classname="TEXT">
<system-out>holds 0 vacuous 0 fails 0 disabled 0 open 3</system-out>
</testcase>
<testcase name="never" classname="TEXT">
<skipped message="never tried"/>
<system-out>holds 0 vacuous 2 fails 0 disabled 1 open 0</system-out>
</testcase>
</testsuite>
REST</testsuites>
"""

REFUSED = ("p: assert property (@(posedge clk) ckl);\n  q: assert property (@(posedge clk) a |-> ukr);\n",
           (b":4:36", b":5:44"), (b"Y1 UnknownName ckl; did you mean clk?", b"Y1 UnknownName ukr"))

SHEET = """FAIL r  rows.sva:1:1   began at clock 0 (#5), decided at clock 2 (#25); 1 failed attempt
  clock      0   1   2
  time       5  15  25
  a          1   0   0
  b          0   1   0
  booleans:
  a          1
  1          -   1   1
  b                  0
  antecedent ended at clocks 1, 2; from clock 2 no match of the consequent is possible after clock 2
"""

# Brackets of a looser operator before a tighter one, + after ^ (11.3.2).
MIXED = "((a ^ b) + b) == 2'd2"
MIXED_SHEET = f"""FAIL r  rows.sva:1:1   began at clock 0 (#5), decided at clock 0 (#5); 1 failed attempt
  {'clock':21}  0
  {'time':21}  5
  {'a':21}  1
  {'b':21}  1
  {MIXED}  0
  no match is possible after clock 0
"""


def filled(body, weight):
    """A sequence beside another one, so that both weigh so much."""
    more = weight - body[1]
    parts = [f"({body[0]})", *(["a[*127]"] if more > 127 else []), *([f"a[*{(more - 1) % 127 + 1}]"] if more else [])]
    return " or ".join(parts)


def try_weights(shell):
    """Of each sequence, beside what makes it weigh 127 and 128: `lint` refuses the second alone, and tells why."""
    put(shell, "rows.vcd", dump([{}]))
    for declared in dict.fromkeys(it[0] for it in WEIGHTS):
        rows = [it[1:] for it in WEIGHTS if it[0] == declared]
        lines = [rule(f"{filled(row, most)} |-> b", f"r{at}_{most}") for at, row in enumerate(rows)
                 for most in (127, 128)]
        put(shell, "rows.sva", declared + "".join(lines))
        _, out, said = shell.run("lint --vcd rows.vcd --sva rows.sva")
        told = re.findall(r"(?m)^rows\.sva:(\d+):\d+: (?!note)([^;]*; [^,]*)", out.decode())
        skipped = declared.count("\n")
        wanted = [(f"{skipped + 2 * at + 2}", "Y9 TooWide; weighs 128") for at, _ in enumerate(rows)]
        shell.tally.note(f"weights after {declared[:12]}", (wanted, b""), (told, said))


def try_told(shell):
    """What is told of a text, by `check` and by `judge`."""
    put(shell, "rows.vcd", dump([{}]))
    for declared, body, code, at in TOLD:
        text = declared + rule(body)
        put(shell, "rows.sva", text)
        byte = text.index(at) if isinstance(at, str) else len(declared) + AT + at
        for command in ("check", "judge"):
            status, _, said = shell.run(f"{command} --vcd rows.vcd --sva rows.sva")
            found = said.decode().removesuffix("\n") if status not in (0, 1) else ""
            shell.tally.note(f"{command} {declared[:12]} {body}", f"svamon: {code} {byte}" if code else "", found)


def judged(shell, words):
    """Each assertion's counts and failures by the JSON of a check."""
    shell.run(f"{words} --json rows.json")
    with open(f"{shell.folder}/rows.json", encoding="utf-8") as file:
        told = json.load(file)["assertions"]
    return [(tuple(it["counts"].values()), [(one["start"], one["clock"]) for one in it["failures"]]) for it in told]


def report_of(clocks, counts, failures):
    """The report on the one assertion `r`."""
    told = " ".join(f"{name} {it}" for name, it in zip(("holds", "vacuous", "fails", "disabled", "open"), counts))
    lines = "".join(f"fail r start {start} clock {clock}\n" for start, clock in failures)
    return f"svamon 1\nclocks {clocks}\nmonitor r {told}\n{lines}total {told}\n".encode()


def try_verdicts(shell):
    """Reports by a check, by the slow judge, and by the program that is built."""
    for ticks, declared, body, counts, failures in VERDICTS:
        ticks = [bits(it) for it in ticks.split()]
        put(shell, "rows.vcd", dump(ticks))
        put(shell, "rows.sva", declared + rule(body))
        status, report = 1 if failures else 0, report_of(len(ticks), counts, failures)
        for command in ("check", "judge"):
            shell.expect(f"{command} --vcd rows.vcd --sva rows.sva", status, report)
        shell.expect("build --vcd rows.vcd --sva rows.sva --name r --out rows.svm", 0)
        shell.expect("run --vcd rows.vcd --code rows.svm", status, report)


def held(shell, name):
    with open(f"{shell.folder}/{name}", "rb") as file:
        return file.read()


def try_sections(shell):
    """The code of small sequences, which a reader that knows nothing of svamon's takes apart."""
    put(shell, "rows.vcd", dump([{}]))
    for body, slots, antecedent, consequent in SECTIONS:
        put(shell, "rows.sva", rule(body))
        shell.expect("build --vcd rows.vcd --sva rows.sva --name r --out rows.svm", 0)
        found = listed(held(shell, "rows.svm"))
        atoms = "".join(f"Load({it}), SetAtom({at}), " for at, it in enumerate(slots))
        sections = ", ".join(f"{side}: Section {{ start: 1, blocks: {blocks} }}" for side, blocks in
                             (("antecedent", antecedent), ("consequent", consequent)))
        shell.tally.note(body, f"sample: [{atoms}Halt], {sections} }}", found[found.find("sample: "):])
        shell.tally.note(f"{body}: verified", 0, shell.run("verify rows.svm")[0])


def try_programs(shell):
    """The smallest program, byte by byte, in either version, and one without positions."""
    shell.copy("fails_at_its_tick", ("dump.vcd", "small.vcd"), ("assertion.sva", "small.sva"))
    shell.expect("build --vcd small.vcd --sva small.sva --name r --out rows.svm", 0)
    shell.tally.note("the smallest program", SMALLEST, held(shell, "rows.svm"))
    for name, code in (("smallest", SMALLEST), ("no positions", NO_POSITIONS)):
        for version in (b"\1", b"\2"):
            put(shell, "rows.svm", code[:4] + version + code[5:])
            shell.expect("upgrade rows.svm --out newer.svm", 0)
            shell.tally.note((name, version), code, held(shell, "newer.svm"))
    for version in (b"\1", b"\2"):
        put(shell, "rows.svm", SMALLEST[:4] + version + SMALLEST[5:])
        shell.expect("verify rows.svm", 0, b"history 0 stack 1 attempts 1 obligations 1 budget 14\n")
        shell.expect("run --vcd small.vcd --code rows.svm", 1, shell.report("fails_at_its_tick"))


def try_values(shell):
    """At which clocks expressions are true."""
    ticks = [{"v": 1, "u": 1 << 127}, {"v": 3, "u": 1}, {"v": 2, "u": 0}, {"v": 2, "u": 0}]
    put(shell, "rows.vcd", dump(ticks))
    put(shell, "rows.sva", COUNTERS + "".join(rule(body, f"r{at}") for at, (body, _) in enumerate(VALUES)))
    found = judged(shell, "check --vcd rows.vcd --sva rows.sva")
    for (body, true), (counts, failures) in zip(VALUES, found):
        wrong = [(it, it) for it in range(4) if it not in true]
        shell.tally.note(body, ((len(true), 0, len(wrong), 0, 0), wrong), (counts, failures))
    shell.tally.note("values", len(VALUES), len(found))


def try_sheets(shell):
    """Why an attempt failed of which the first end is answered and the second isn't; one that may be answered; and how
    a boolean is spelt whose operators bind differently."""
    put(shell, "rows.vcd", dump([bits(it) for it in ("10", "01", "00")]))
    put(shell, "rows.sva", rule("a ##[1:2] 1 |-> b"))
    shell.expect("explain --vcd rows.vcd --sva rows.sva", 1, SHEET.encode())
    put(shell, "rows.vcd", dump([bits(it) for it in ("10", "01")]))
    shell.expect("explain --vcd rows.vcd --sva rows.sva", 0, line="svamon: no attempt failed")
    put(shell, "rows.vcd", dump([bits("11")]))
    put(shell, "rows.sva", rule(MIXED))
    shell.expect("explain --vcd rows.vcd --sva rows.sva", 1, MIXED_SHEET.encode())


def try_forms(shell):
    """A report as JSON and as XML, byte by byte; also beside what is refused."""
    put(shell, "d&.vcd", dump([bits(it) for it in TICKS]))
    items, places, reasons = REFUSED
    for text, more in ((JUDGED, ()), (JUDGED + items, ("--keep-going",))):
        put(shell, ODD, text)
        status, _, said = shell.run(["check", "--vcd", "d&.vcd", "--sva", ODD, *more, "--json", "rows.json", "--junit",
                                     "rows.xml"])
        told = list(zip(places, reasons)) if more else []
        json_rest = b",".join(b'{"place":"PLACE%b","reason":"%b"}' % it for it in told)
        xml_rest = b"".join(b'<testcase name="PLACE%b" classname="TEXT">\n<error type="refused" message="%b"/>\n'
                            b"</testcase>\n" % it for it in told)
        if more:
            json_rest = b',"refused":[%b]' % json_rest
            xml_rest = (b'<testsuite name="refused" tests="2" failures="0" errors="2" skipped="0">\n%b</testsuite>\n'
                        % xml_rest)
        shell.tally.note(("forms", more), (2 if more else 1), status)
        for name, form, rest, path, place in (("rows.json", JSON, json_rest, ODD_JSON, PLACE_JSON),
                                              ("rows.xml", XML, xml_rest, ODD_XML, PLACE_XML)):
            wanted = form.replace(b"REST", rest).replace(b"TEXT", path).replace(b"PLACE", place)
            shell.tally.note((name, more), wanted, held(shell, name))


def try_assertion_rows(shell):
    """All of these."""
    for part in (try_weights, try_told, try_verdicts, try_sections, try_programs, try_values, try_sheets, try_forms):
        part(shell)
