"""What is told of small texts and dumps, by the built program: all that `lint` and `names` write, where items end,
which name is meant, and what a program reads, counts and is called. `outside` imports it. What must be told was worked
out by hand from docs/COMMANDS.md, docs/REFUSALS.md and IEEE 1800-2017; the tables of `names` are those of
`scripts/models/names_model.py`.
"""
import copy
import os
import re

from borders import DUMP as TICK, Reader, put

CLOCKED = """$scope module tb $end $var wire 1 ! clk $end $var wire 1 r req $end $var wire 1 g gnt $end $upscope $end
$enddefinitions $end #0 0! 1r 1g #5 1! #10 0! #15 1!
"""

# Names that no rule can have, and a range that doesn't end at 0.
ODD = """$scope module tb $end $var wire 1 ! clk $end $var real 64 r gain $end $var event 1 e done $end
$var wire 200 w wide $end $var wire 30 a addr [31:2] $end $var wire 1 g gnt $end $var wire 128 v full $end $upscope $end
$enddefinitions $end #0 0! b0 a 0g b0 v #5 1!
"""

# Names of which some are near to one another.
NEAR = """$scope module tb $end $var wire 1 ! clk $end $var wire 1 f f_full $end $var wire 1 u full $end
$var wire 1 l fall $end $var wire 1 e empty $end $upscope $end $enddefinitions $end
"""


def rule(label, body, clock="tb.clk"):
    return f"{label}: assert property (@(posedge {clock}) {body});"


def linted(shell, dump, texts):
    """What `lint` ends with and writes, of texts by the names of their files."""
    words = ["lint", "--vcd", dump]
    for name, text in texts.items():
        with open(f"{shell.folder}/{name}", "wb") as file:
            file.write(text.encode())
        words += ["--sva", name]
    return shell.run(words)


def refusal(name, text, line, word, message, before=0):
    """The three lines that tell of a refusal where the word begins in that line of the text, which is ASCII."""
    shown, at = text.splitlines()[line - 1], -1
    for _ in range(before + 1):
        at = shown.index(word, at + 1)
    return f"{name}:{line}:{at + 1}: {message}\n{shown}\n{at * ' '}^\n"


GMT = "Y1 UnknownName tb.gmt; did you mean tb.gnt?"
NOT = "P2 OutsideProfile not; write !b for a boolean b, and S |-> 0 for not (S) of a sequence S"
THREE = f"{rule('a', 'tb.req |-> tb.gmt')}\n{rule('b', 'not tb.gnt')}\n{rule('c', 'tb.gnt')}\n"
TABBED = f"{rule('a', 'tb.gnt')}\n\tb: assert property (/* \u00e9 */ @(posedge tb.clk) tb.gmt);\n"


def try_whole(shell):
    """All that is written of texts in one, two and three files: places in lines after tabs and letters of two bytes."""
    late = f"\n{rule('a', 'tb.gmt')}"
    first, second, last = f"\n{rule('a', 'tb.gnt')}\n", "counter a [8:1];\n", rule("a", "tb.req")
    mended = f"a:\n  assert property (@(posedge tb.clk)\n  not tb.gnt);{rule('b', 'tb.gnt')}\n\n{rule('c', 'tb.gmt')}"
    twice = (f"Y2 Duplicate a; the first one stands at a.sva:2:1; names of assertions, sequences and counters are all "
             f"different")
    for texts, told, total in (
            ({"r.sva": f"{rule('a', 'tb.req |-> ##[1:5] tb.gnt')}\n"}, "", "0 of 1"),
            ({"r.sva": THREE},
             refusal("r.sva", THREE, 1, "tb.gmt", GMT) + refusal("r.sva", THREE, 2, "not", NOT), "2 of 3"),
            ({"r.sva": rule("a", "tb.gnt", "tb.clj")},
             refusal("r.sva", rule("a", "tb.gnt", "tb.clj"), 1, "tb.clj", "C1 NoClock tb.clj; did you mean tb.clk?"),
             "1 of 1"),
            ({"a.sva": "// none\n", "b.sva": late}, refusal("b.sva", late, 2, "tb.gmt", GMT), "1 of 1"),
            ({"a.sva": first, "p.sva": second, "b.sva": last},
             refusal("p.sva", second, 1, ":", "P1 Expected ]") + refusal("b.sva", last, 1, "a:", twice), "2 of 3"),
            ({"r.sva": TABBED}, f"r.sva:2:49: {GMT}\n{TABBED.splitlines()[1]}\n\t{46 * ' '}^\n", "1 of 2"),
            ({"r.sva": mended}, refusal("r.sva", mended, 3, "not", NOT) + refusal("r.sva", mended, 5, "tb.gmt", GMT),
             "2 of 3"),
            ({"r.sva": ""}, "r.sva:1:1: P1 Expected an assertion\n\n^\n", "1 of 1"),
            ({"r.sva": "a\0\x1b\x7f\t\u00e9"}, "r.sva:1:2: L1 BadCharacter\na???\t\u00e9\n ^\n", "1 of 1")):
        wanted = (2 if told else 0, f"{told}{total} items refused\n".encode(), b"")
        shell.tally.note(("lint", texts), wanted, linted(shell, "clocked.vcd", texts))
    rules = shell.run("rules --axi ports.txt")[1].decode()
    named = re.search(r"(?m)^(\w+) : assert property \( @ \( posedge ([\w.]+) \)", rules)
    put(shell, "named.sva", rule(named[1], "1", named[2]))
    told = shell.run("lint --vcd axi.vcd --sva named.sva --axi ports.txt")[1].decode()
    line = 1 + rules[:named.start()].count("\n")
    front = f"rules of ports.txt:{line}:1: Y2 Duplicate {named[1]}; the first one stands at named.sva:1:1; "
    shell.tally.note("lint: a rule's name", front, told[:len(front)])


def try_long(shell):
    """A long line is shown from 80 characters in front of the caret on, where more than 160 stand there."""
    for before, cut in ((160, 0), (161, 81), (205, 125)):
        front = "a: assert property (@(posedge tb.clk) /* "
        digits = (before - len(front) - 4) * "0123456789"
        line = f"{front}{digits[:before - len(front) - 4]} */ tb.gmt || tb.gnt /* {40 * '0123456789'} */);"
        dots = ".." if cut else ""
        wanted = f"r.sva:1:{before + 1}: {GMT}\n{dots}{line[cut:cut + 240]}\n{(len(dots) + before - cut) * ' '}^\n"
        found = linted(shell, "clocked.vcd", {"r.sva": line})[1].decode()
        shell.tally.note(f"lint: {before} before", f"{wanted}1 of 1 items refused\n", found)


# Texts by their dump, and for each line: the word at which it is refused, how often that stands before, and what is
# told. Of several unknown names of an item the others follow the first.
TOLD = (
    ("odd.vcd", (
        (rule("a", "tb.gain > 0"), "tb.gain", 0,
         "Y1 UnknownName tb.gain; it is a real: compare it in the bench, and name a wire of that"),
        (rule("b", "tb.done |-> tb.wide == 0"), "tb.done", 0,
         "Y1 UnknownName tb.done; it is an event, without a value: turn a reg over where it is triggered; "
         "and tb.wide; it has over 128 bits: name parts of it by wires in the bench"),
        (rule("c", "tb.addr[31:2] == 0"), "tb.addr", 0,
         "Y4 SliceRange; tb.addr is declared [31:2]: write tb.addr[29:0] for its [31:2]; bits are counted from 0 at "
         "the right, whatever range is declared"),
        (rule("d", "tb.gnt |-> tb.gn /* tb.no */ || tb.ad"), "tb.gn", 1,
         "Y1 UnknownName tb.gn; did you mean tb.gnt?; and tb.ad"),
        (rule("e", "{tb.full, tb.gnt} == 0"), "{", 0, "Y3 WiderThan128; a concatenation has at most 128 bits"))),
    ("clocked.vcd", (
        (rule("a", "tb.gnt = 1"), "=", 0, "P1 Expected ); write == to compare"),
        (rule("b", "(tb.gnt |-> tb.req"), ";", 0, "P1 Expected ); is a ) missing before it?"),
        (rule("c", "not (tb.gnt |-> tb.req)"), "not", 0,
         "P2 OutsideProfile not; write a && !b for not (a |-> b), a ##1 !b for not (a |=> b), and S |-> 0 for not (S)"),
        (rule("d", "##[1:100] tb.gnt ##[1:27] tb.req"), "##", 0,
         "Y9 TooWide; weighs 129, at most 127; shorten its ranges, or count in a counter"),
        (rule("e", "nexttime tb.gnt"), "nexttime", 0,
         "P2 OutsideProfile nexttime; write ##1 S, and ##2 S for nexttime [2] S"),
        (rule("f", "tb.gnt next tb.req"), "next", 0, "P1 Expected )"),
        (rule("g", "tb.gnt === tb.req"), "= tb", 0, "P1 Expected an expression; write ==: x and z are 0"),
        (rule("h", "tb.gnt <<< 1"), "< 1", 0, "P1 Expected an expression; write <<"))),
    ("clocked.vcd", (
        ("sequence s; tb.gnt endsequence", "", 0, ""),
        ("sequence t; tb.gmt endsequence", "tb.gmt", 0, GMT),
        (rule("a", "tb.req |-> s"), "", 0, ""),
        (rule("b", "tb.req |-> t"), "t);", 0, "Y1 UnknownName t; it is refused itself, or no value"),
        (rule("c", "tb.rqe"), "tb.rqe", 0, "Y1 UnknownName tb.rqe; did you mean tb.req?"))),
    ("near.vcd", tuple(
        (rule(f"n{at}", name), name, 0, f"Y1 UnknownName {name}" + (f"; did you mean {meant}?" if meant else ""))
        for at, (name, meant) in enumerate((
            ("tb.ful", "tb.full"), ("tb.flal", "tb.fall"), ("tb.fal", "tb.fall"), ("tb.emtpy", "tb.empty"),
            ("tb.f_ful", "tb.f_full"), ("tb.ready", ""))))))


def try_told(shell):
    """Why a name is refused, and what may be meant."""
    for dump, rows in TOLD:
        text = "".join(f"{line}\n" for line, _, _, _ in rows)
        wanted = "".join(refusal("r.sva", text, at + 1, word, told, before)
                         for at, (_, word, before, told) in enumerate(rows) if word)
        count = sum(1 for _, word, _, _ in rows if word)
        found = linted(shell, dump, {"r.sva": text})[1].decode()
        shell.tally.note(f"lint over {dump}", f"{wanted}{count} of {len(rows)} items refused\n", found)


# Texts of which each item is refused, and how many items there are.
COUNTED = (
    (" a; b // ;\n ;", 2), ("property p; a; endproperty assert property (p);", 2), ('a "x; y"; b', 2),
    ("x = 4'bx; \\a;b ; c;", 3), ("a: assert b\nc: assume d;", 2), ("sequence s; a assert b;", 2), ("a.assert b;", 1),
    ("if (a) assert b; assert c;", 2), ("for (a; b; c) assert d; assert e;", 2),
    ("initial begin assert b; end assert c;", 2), ("generate if (a) begin assert b; end endgenerate c;", 2),
    ("case (a) 1: begin b; end endcase c; end d;", 4), ("`x a: b;\nc;", 2), ("a `x;\nb;", 2))

# Texts with @ where something is refused that stands before an assertion: of which all others are judged.
BESIDE = (
    "a; b // ;\n ;@", "sequence s; tb.q; endsequence : s@", "property p; tb.q; endproperty@", 'a "x; y";@',
    "x = 4'bx;@ \\a;b ;@", "@ if (a) assert b;@", "for (a; b; c) assert d;@", "initial begin assert b; end@",
    "generate if (a) begin assert b; end endgenerate@", "case (a) 1: begin b; end endcase@ c;@ end@", "`x a: b;\n@",
    "a `x;\n@", "a; endmodule@", "a: assert property (tb.gnt)@", "sequence t; tb.gnt@")


def try_items(shell):
    """Where items end: in texts without tokens, too. Each other item is judged, none is refused with another."""
    for text, count in COUNTED:
        found = linted(shell, "clocked.vcd", {"r.sva": text})[1].decode().splitlines()[-1]
        shell.tally.note(("lint: items", text), f"{count} of {count} items refused", found)
    for text in BESIDE:
        parts = text.split("@")
        names = [f"ok{at}" for at in range(1, len(parts))]
        beside = [f" {rule(name, 'tb.gnt')}{part}" for name, part in zip(names, parts[1:])]
        put(shell, "r.sva", parts[0] + "".join(beside))
        status, out, _ = shell.run("check --vcd clocked.vcd --sva r.sva --keep-going")
        found = re.findall(r"(?m)^monitor (\w+) ", out.decode())
        shell.tally.note(("keep going", text), (2, names), (status, found))
    text = "a; endmodule x b; " + rule("ok", "tb.gnt")
    status, out, _ = linted(shell, "clocked.vcd", {"r.sva": text})
    found = status, re.findall(r"(?m)^r\.sva:1:(\d+): P1 ", out.decode()), out.decode().splitlines()[-1]
    wanted = 2, ["2", "13", "16"], "3 of 4 items refused"
    shell.tally.note("lint: a word that closes nothing", wanted, found)


# Each reason why no rule names a variable, and references in each form.
REASONS = r"""$comment every reason, and each way to write a reference $end $timescale 1 ns $end
$scope module top $end $var wire 1 ! clk $end
$scope module u $end $var reg 32 # addr [31:0] $end $var real 64 $ gain $end $var realtime 64 $ late $end
$var string 8 % text $end $var event 1 & done $end $var wire 0 ' none $end $var logic 129 ( wide [128:0] $end
$upscope $end $var wire 8 ) data[7:0] $end $var wire 4 * up [ 0 : 3 ] $end $var reg 8 + mem[2] [7:0] $end
$var wire 1 , \bus*x $end $var parameter 32 - WIDTH $end $var wire 2 . a b [1:0] $end $var wire 1 / clk $end
$var wire 1 ! u.addr $end $upscope $end $upscope $end $var wire 1 0 alone $end
$scope begin edge $end $var wire 1 1 q $end $upscope $end
$scope module counter $end
$var wire 16 2 wide_name_that_is_longer_than_sixty_bytes_with_its_scope_and_dot [15:0] $end $upscope $end
$enddefinitions $end #0 0! $dumpvars $end
"""
OF_TOP = r"""top.clk       1           wire
top.u.addr   32  [31:0]   reg
top.u.gain   64           real       not in a rule: a real
top.u.late   64           realtime   not in a rule: a real
top.u.text    8           string     not in a rule: a string
top.u.done    1           event      not in a rule: an event
top.u.none    0           wire       not in a rule: of 0 bits
top.u.wide  129  [128:0]  logic      not in a rule: over 128 bits
top.data      8  [7:0]    wire
top.up        4  [0:3]    wire
top.mem[2]    8  [7:0]    reg        not in a rule: not words joined by dots
top.\bus*x    1           wire       not in a rule: not words joined by dots
top.WIDTH    32           parameter
top.ab        2  [1:0]    wire
top.clk       1           wire       not in a rule: an earlier variable has this path
top.u.addr    1           wire       not in a rule: an earlier variable has this path
"""

# A header with names that have a `$`, as Icarus Verilog wrote it.
DOLLARS = r"""$date Sun Nov 22 05:42:59 2026 $end $version Icarus Verilog $end $timescale 1s $end
$scope module tb $end $var reg 1 ! \A$ $end $var reg 1 " _ $end $var reg 1 # __x1 $end $var reg 1 $ _a $end
$var reg 1 % a_b $end $var reg 1 & clk $end $var reg 1 ' event_ $end $var reg 1 ( \u$d $end
$scope module _sub $end $var reg 1 ) q $end $upscope $end $upscope $end $enddefinitions $end #0
"""
OF_DOLLARS = r"""tb.\A$     1    reg  not in a rule: not words joined by dots
tb._       1    reg
tb.__x1    1    reg
tb._a      1    reg
tb.a_b     1    reg
tb.clk     1    reg
tb.event_  1    reg
tb.\u$d    1    reg  not in a rule: not words joined by dots
tb._sub.q  1    reg
"""
LONG = "counter.wide_name_that_is_longer_than_sixty_bytes_with_its_scope_and_dot  16  [15:0]  wire\n"


def try_names(shell):
    """Whole tables of `names`, and a header that is cut inside a variable."""
    put(shell, "reasons.vcd", REASONS)
    put(shell, "dollars.vcd", DOLLARS)
    put(shell, "cut_names.vcd", "$scope module top $end $var wire 1")
    for words, status, wanted in (
            ("reasons.vcd --scope top", 0, OF_TOP),
            ("reasons.vcd --scope edge --match e", 0,
             "edge.q  1    wire  not in a rule: begins with a word of the language\n"),
            ("reasons.vcd --match wide_name", 0, LONG),
            ("reasons.vcd --scope top.u --match clk", 1, "0 of 19 variables\n"),
            ("dollars.vcd", 0, OF_DOLLARS)):
        shell.expect(f"names --vcd {words}", status, wanted.encode())
    shell.expect("names --vcd cut_names.vcd", 2, line="svamon: V4 UnclosedSection 1")


# A dump with a path of two words, and what texts over it say of the program of an assertion.
READ = """$var wire 1 ! clk $end $var wire 1 r r $end $var wire 8 v v $end $var wire 8 s2 s2 $end $var wire 1 a a $end
$var wire 128 w w $end $scope module top $end $var wire 4 t v $end $upscope $end
$scope module t $end $var wire 1 c c $end $upscope $end $enddefinitions $end
"""
COLUMNS = """counter w [3] add(v == 1, w);
r: assert property (@(posedge clk) disable iff (top.v == 0) a ##1 v[1] |-> q ##0 w == 2);
sequence q; a endsequence
"""
COUNTERS = """counter c [4] add(c < d, 1); counter d [8] load(c == 3, d + 1);
r: assert property (@(posedge t.c) s |-> c < d); sequence s; c == 2 ##1 a endsequence
"""
ITEMS = """counter n [128] clear(r) sub(s2, 2); sequence s; a ##1 v[0] endsequence
counter: assume property (@(posedge t.c) disable iff (!r) s ##0 n == 0);
"""


def program_of(shell, text, name):
    """All that a program holds, by a reader of bytecode of its own."""
    put(shell, "read.sva", text)
    shell.expect(f"build --vcd read.vcd --sva read.sva --name {name} --out read.svm", 0)
    with open(f"{shell.folder}/read.svm", "rb") as file:
        return Reader(file.read()).program()


def try_read(shell):
    """Which signals a program reads, in the order of the text, its counters, clock and name; and what a name is of."""
    put(shell, "read.vcd", READ)
    for text, name, clock, disabled, signals, counters in (
            (COLUMNS, "r", "clk", True, (("v", 8), ("top.v", 4), ("a", 1)), [3]),
            (COUNTERS, "r", "t.c", False, (("a", 1),), [4, 8]),
            (ITEMS, "counter", "t.c", True, (("r", 1), ("s2", 8), ("a", 1), ("v", 8)), [128])):
        held = program_of(shell, text, name)
        slots = ", ".join(f'Slot {{ width: {width}, path: "{path}" }}' for path, width in signals)
        wanted = (name, clock, disabled, f"[{slots}]", f"{counters}")
        found = re.search(r'disable: (\w+).*? name: "(\w+)", clock: "([\w.]+)", signals: (.*?), '
                          r'counters: (.*?), sample', held)
        shell.tally.note(text, wanted, (found[2], found[3], found[1] == "Some", found[4], found[5]))
    put(shell, "tick.vcd", TICK.replace("$var wire 1 y y", "$var wire 1 y x $end\n$var wire 1 y y"))
    named = "sequence p; x endsequence counter n [8]; sequence q; y endsequence\n"
    for body, fails in (("p", 0), ("(q)", 1), ("(p) ##0 q", 1), ("q[*0] ##1 p", 0), ("n == 0", 0), ("x", 0)):
        put(shell, "named.sva", named + rule("r", body, "clk"))
        status, out, _ = shell.run("check --vcd tick.vcd --sva named.sva")
        found = status, re.search(r" fails \d ", out.decode())[0]
        shell.tally.note(("check", body), (fails, f" fails {fails} "), found)
    put(shell, "gaps.sva", "// nothing\n/* more *///")
    shell.expect("check --vcd tick.vcd --sva gaps.sva", 2, line="svamon: P1 Expected 23")


def try_text_rows(shell):
    """All of these, in a folder of their own."""
    shell = copy.copy(shell)
    shell.folder = f"{shell.folder}/rows"
    os.mkdir(shell.folder)
    shell.copy("axi_port", ("dump.vcd", "axi.vcd"), ("ports.txt", "ports.txt"))
    for name, dump in (("clocked.vcd", CLOCKED), ("odd.vcd", ODD), ("near.vcd", NEAR)):
        put(shell, name, dump)
    for part in (try_whole, try_long, try_told, try_items, try_names, try_read):
        part(shell)
