"""What becomes of a team's own files, by the built program: what is written of each assertion, and what is told of it.

`outside` imports it. What must come was worked out by hand from IEEE 1800-2017: types and constants by 6.11, 6.20.2,
6.24.1, 10.7, 11.8 and 16.8.1, local variables by 16.10, generate constructs by 27.4 and 27.5.
"""

# Signals of a dump, each with its width; a real has none.
WIDTHS = {"a": 1, "b": 1, "c": 1, "d": 8, "e": 8, "full": 1, "w": 16}

HEAVY = "r: assert property (@(posedge c) a |-> (##[1:90] b) and ##[1:80] d);\n"

# A name, a file, words, what is written (none: any text), a part of what is told, and the status.
FILES = (
    ("too heavy", HEAVY, "", "", "f.sv:1:1: refused r TooHeavy: ", 2),
    ("two halves", HEAVY, "--split",
     "r__1: assert property (@(posedge c) a |-> ##[1:90] b);\nr__2: assert property (@(posedge c) a |-> ##[1:80] d);\n",
     "f.sv:1:1: note r Renamed: r__1 and r__2\n", 0),
    ("halves after all antecedents",
     "r: assert property (@(posedge c) a |=> if (e) always [0:1] nexttime\n(f |-> (##[1:50] b) and ##[1:50] d));\n",
     "--split", None, "f.sv:1:1: note r Renamed: r__1 and r__2\n", 0),
    ("light", "r: assert property (@(posedge c) a |-> (##1 b) and ##1 d);\n", "--split", None, "", 0),
    ("a label before an unknown macro", "r: `ASSERT(x);\ns: assert property (@(posedge c) a);\n", "",
     "s: assert property (@(posedge c) a);\n", "f.sv:1:4: note `ASSERT UnknownMacro: ", 0),
    ("a local variable", "property p;\n  logic v;\n  (a, v = b) |=> v;\nendproperty\n"
     "r: assert property (@(posedge c) p);\n", "", None, "f.sv:5:1: note r UnknownType: ", 0),
    ("turns of generate loops", """localparam N = 2; default clocking k @(posedge c); endclocking
for (genvar i = 0; i < N; i++) begin : g
localparam M = i + 1;
a: assert property (v[i] |-> w == M);
for (genvar j = 5; j > 4; j--) begin b: assert property (u[j]); end
assert property (x[i]);
if (i == 1) begin d: assert property (y); end
else begin e: assert property (z); end
end
""", "", """a_0: assert property (@(posedge c) v[0] |-> w == 1);
b_0_5: assert property (@(posedge c) u[5]);
assert_3: assert property (@(posedge c) x[0]);
e_0: assert property (@(posedge c) z);
a_1: assert property (@(posedge c) v[1] |-> w == 2);
b_1_5: assert property (@(posedge c) u[5]);
assert_7: assert property (@(posedge c) x[1]);
d_1: assert property (@(posedge c) y);
""", "f.sv:7:19: note d_0 Generate: its block is not generated\n"
     "f.sv:8:12: note e_1 Generate: its block is not generated\n", 0),
    ("bounds that are no constants", """for (genvar i = 0; i < N; i++) begin
a: assert property (@(posedge c) v[i]);
end
if (0) begin b: assert property (@(posedge c) d); end
r: assert property (@(posedge c) a);
""", "", "r: assert property (@(posedge c) a);\n", "f.sv:2:4: refused a Generate: ", 1),
    ("a counter with the name of a signal", "q: assert property (@(posedge c) q__past1 |-> $past(a, 1, b));\n", "",
     "counter q_2__past1 [128] load(b, {a});\nq_2: assert property (@(posedge c) q__past1 |-> q_2__past1);\n",
     "f.sv:1:1: note q Renamed: q_2\n", 0),
    ("booleans that imply", "r: assert property (@(posedge c) a implies b);\n", "", None,
     "f.sv:1:1: note r Vacuity: ", 0),
    ("covers alone", "r: cover property (@(posedge c) a);\n", "", "", "f.sv:1:1: note r Cover", 2),
    ("names of a scope and of one round it", "let x = a; let y = b;\nmodule m; let x = d;\n"
     "r: assert property (@(posedge c) x && y);\nendmodule s: assert property (@(posedge c) x);", "",
     "r: assert property (@(posedge c) d && b);\ns: assert property (@(posedge c) a);\n", "", 0),
)

# A property after its word, its use, and what is written after the clock, or the code that is told.
PROPERTIES = (
    ("(logic [3:0] x); a |-> x == 4'd3;", "p(d)", "a |-> d[3:0] == 4'd3"),
    ("(logic [8:0] x, y); a |-> x + y == w;", "p(d, e)", "a |-> 9'd0 + d + 9'd0 + e == w"),
    ("(logic [7:0] x); a |-> x == w;", "p(d + e)", "a |-> {d + e} == w"),
    ("(logic [8:0] x); a |-> x == w;", "p(d + e)", "a |-> 9'd0 + {d + e} == w"),
    ("(logic x); a |-> x;", "p(d + e)", "a |-> {d + e} & 1'd1"),
    ("(bit [1:0] k); a |-> d == k;", "p(7)", "a |-> d == 2'd3"),
    ("(int n); a |-> ##n b;", "p(3)", "a |-> ##3 b"),
    ("; logic [8:0] v; (a, v = d + e) |=> w == v;", "p", "a |=> w == $past({9'd0 + d + e})"),
    ("; logic [3:0] v; (a, v = d) |=> w == v;", "p", "a |=> w == $past(d[3:0])"),
    ("; int v; (a, v = d) |=> d == v + 1;", "p", "a |=> d == $past(0 + d) + 1"),
    ("; state_t v; (a, v = d) |=> d == v;", "p", "UnknownType"),
    ("(byte x); a |-> x < 3;", "p(d)", "Signed"),
    ("(int x); a |-> x < 3;", "p(d)", "a |-> d < 3"),
    ("(nibble x); a |-> x == w;", "p(d)", "a |-> d[3:0] == w"),
    ("(sequence s, logic x, untyped u); s |-> x;", "p(a ##1 b, b, a)", "a ##1 b |-> b"),
)

# A constant, a property of it, and how what is written after the clock begins, or the code that is told.
CONSTANTS = (
    ("parameter signed [7:0] K = -3;", "K == -3", "1);"), ("parameter byte K = 300;", "d == K", "d == 8'd44"),
    ("parameter [3:0] J = 1, K = -1;", "d == K", "d == 4'd15"),
    ("parameter int unsigned K = 4;", "a |-> ##[1:K - 1] b", "a |-> ##[1:3] b"),
    ("localparam logic signed [3:0] K = -1;", "K < 0", "1);"), ("parameter nibble K = 20;", "d == K", "d == 4'd4"),
    ("parameter other_t K = 3;", "d == K", "UnknownType"), ("parameter [0:3] K = 18;", "d == K", "d == 4'd2"),
    ("parameter int unsigned K = -2;", "K < 0", "0);"), ("localparam int K = -7 / 2;", "K == -3", "1);"),
    ("parameter logic [63:0] K = 1 << 36;", "d == K", "d == 64'd68719476736"),
    ("parameter longint K = 2 ** 40 / 2 ** 38;", "d == K", "d == 64'd4"),
    ("parameter logic [63:0] K = 32'hffff_ffff + 1;", "d == K", "d == 64'd4294967296"),
    ("parameter K = 1 << 36;", "d == K", "d == 0"), ("parameter K = 3;", "(d & ~K) == d", "(d & ~3) == d"),
    ("parameter K = 3;", "d == K - 5 + 4", "d == 2)"), ("parameter K = 3;", "d inside {-1}", "d == 1'd0 - 1)"),
    ("parameter [0:3] K = 8;", "K[0]", "Outside"), ("parameter nibble K = 8;", "K[3] || d[K - 7]", "(4'd8 >> 3"),
    ("parameter signed K = 4'd15;", "K < 0", "1);"),
)


def rule(property, name="r"):
    return f"{name}: assert property (@(posedge c) {property});\n"


# A file, and how what is told of it begins; nothing where nothing may be told.
DECLARED = (
    ("module m(input signed [7:0] d);\n" + rule("d < 3") + "endmodule\n", "f.sv:2:34: refused r Signed: "),
    ("module m(input logic [3:0] d);\n" + rule("d == 3") + "endmodule\n", "f.sv:2:34: refused r Width: "),
    ("module m(input a, b);\nwire full = a;\n" + rule("full |=> b") + "endmodule\n", "f.sv:2:6: note full Declared: "),
    ("module m #(parameter N = 1) (input a);\n" + rule("a") + "endmodule\nm #(.N(2)) u(.a(b));\n",
     "f.sv:4:1: note m Parameters: "),
    ("module m(input tri0 signed [7:0] d);\n" + rule("d < 3") + "endmodule\n", "f.sv:2:34: refused r Signed: "),
    ("module m(input a);\nwand signed [7:0] d;\n" + rule("d < 3") + "endmodule\n", "f.sv:2:19: note d Declared: "),
    ("module m(input logic [3:0][7:0] d);\n" + rule("d[1] == 3") + "endmodule\n", "f.sv:2:34: refused r Array: "),
    ("module m import p::*; (input signed [7:0] d);\n" + rule("d < 3") + "endmodule\n",
     "f.sv:2:34: refused r Signed: "),
    ("module m(d);\noutput [7:0] d;\nreg signed [7:0] d;\n" + rule("d < 3") + "endmodule\n",
     "f.sv:4:34: refused r Signed: "),
    ("module m(input [8:1] d);\n" + rule("d[3]") + "endmodule\n", "f.sv:2:34: refused r Range: "),
    ("module m(input a);\nfor (genvar i = 0; i < 1; i = i + 1) begin : g\nwire b = a;\n" + rule("b")
     + "end\nendmodule\n", "f.sv:4:34: refused r_0 NoWord: "),
    ("checker k(a, b);\n" + rule("a |-> b") + "endchecker\nk u(b, a);\n", "f.sv:4:1: note k Checker: "),
    (rule("case (d + e) 8'd3: a; 9'd300: b; default: 1; endcase"), "f.sv:1:34: refused r Width: "),
    ("`define X a\n`undefineall\n" + rule("`X"), "f.sv:3:34: refused r UnknownMacro: "),
    ("module m(input pk::t d);\n" + rule("d == 8'd3") + "endmodule\n", "f.sv:2:1: note r UnknownType: "),
    ("module m #(int N = 3, K = 2) (input a);\n" + rule("a |-> ##[K:N] b") + "endmodule\n", ""),
    ("module m(input a);\ninitial begin wait fork; end\n" + rule("a") + "endmodule\n", ""),
    (rule("g"), "f.sv:1:34: refused r UnknownName: no rule can name g"),
    ("r: assert property (@(posedge k) a);\n", "f.sv:1:1: refused r UnknownName: k"),
    ("r: assert property (@(posedge d) a);\n", "f.sv:1:1: refused r ClockForm: "),
    (rule("|{8{w, d}}"), "f.sv:1:35: refused r WiderThan128: "),
    ("module m(input logic [W-1:0] d, input e);\n" + rule("d == 3 && full") + "endmodule\n", ""),
    ("module m(input c);\nwire signed [7:0] \\d ;\nassign d = e;\n" + rule("d < 3") + "endmodule\n",
     "f.sv:2:19: note d Declared: "),
    ("module m(input c);\ninitial expect (@(posedge c) a);\n" + rule("a") + "endmodule\n",
     "f.sv:2:9: note file Expect: "),
)


def put(shell, name, text):
    with open(f"{shell.folder}/{name}", "w") as file:
        file.write(text)


def imported(shell, text, words):
    """The status, what is written, and what is told of a file."""
    put(shell, "f.sv", text)
    status, out, said = shell.run(f"import f.sv --bound 100 {words}".strip())
    return status, out.decode(), said.decode()


def front(text):
    """What is written of the assertion `r`, after its clock."""
    return text.partition("r: assert property (@(posedge c) ")[2]


def try_whole_files(shell):
    """What is written, what is told, and the status."""
    for name, text, words, written, told, status in FILES:
        found = imported(shell, text, words)
        shell.tally.note(name, (status, found[1] if written is None else written), found[:2])
        shell.tally.note(f"{name}: told {found[2]}", (True, told == ""), (told in found[2], found[2] == ""))


def try_typed(shell):
    """Types of arguments, of local variables and of constants."""
    for body, use, wanted in PROPERTIES:
        text = f"typedef logic [3:0] nibble;\nproperty p{body} endproperty\n{rule(use)}"
        _, out, said = imported(shell, text, "--vcd widths.vcd")
        shell.tally.note(f"{body} {use} {out}{said}", True, wanted in front(out) or wanted in said)
    for declared, use, wanted in CONSTANTS:
        _, out, said = imported(shell, f"typedef logic [3:0] nibble;\n{declared}\n{rule(use)}", "--vcd widths.vcd")
        shell.tally.note(f"{declared} {use} {out}{said}", True, front(out).startswith(wanted) or wanted in said)


def try_declarations(shell):
    """What is told of signals that a file declares."""
    for text, wanted in DECLARED:
        said = imported(shell, text, "--vcd widths.vcd")[2]
        shell.tally.note(text, (wanted, wanted == ""), (said[:len(wanted)], said == ""))


def try_team_files(shell):
    """All of these."""
    made = "".join(f"$var wire {width} {name} {name}{f' [{width - 1}:0]' if width > 1 else ''} $end\n"
                   for name, width in WIDTHS.items())
    put(shell, "widths.vcd", f"{made}$var real 64 g g $end\n$enddefinitions $end\n")
    for part in (try_whole_files, try_typed, try_declarations):
        part(shell)
