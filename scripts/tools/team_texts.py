"""What is written of each form of a team's text, by the built program, and with which code others are refused.

`outside` imports it. What must come was worked out by hand from IEEE 1800-2017 and docs/IMPORT.md: how operators group
by tables 11-2 and 16-3, numbers by 5.7.1, widths and signs by 11.6 and 11.8, selects by 11.5, system functions by
16.9.3 and 20.6 to 20.9, sequences by 16.7 to 16.11, properties by 16.12 and annex F, clocks by 14.12 and 16.13, names
by 23.9 and clause 26. Where several texts say the same, it is the one that the heads of the crates `import_*` tell of;
in a sequence `!a or S` says S "after each end" of `a`. `import_rows.py` compares what such texts come to with a model.

In a text `§` stands before what is told, and is left out of the file: the token that is wrong, the first one of an
expression or a part that can't be said, or the label of an assertion that can't. A wanted text is what stands after the
clock; one that begins with a capital letter is the code of a refusal.
"""
import re

from team_files import put

ENUM = "typedef enum logic [1:0] {IDLE, BUSY} t; "
CLOCK = "default clocking cb @(posedge k); endclocking\n"
SEQUENCES = "sequence q; a ##[1:2] b; endsequence sequence r; ##2 b; endsequence sequence u(x); x; endsequence "
LOCAL = "sequence s; int v; (a, v = d) ##1 b[*2] ##1 v == e; endsequence "
MESSAGE = re.compile(r"(?m)^f\.sv:(\d+):(\d+): (refused|note) (\S+) (\w+): .*$")

# A form, the same with all of its brackets, and another way to group it, whose text is another one.
GROUPS = (
    ("not a and b", "(not a) and b", "not (a and b)"),
    ("a until b or d", "a until (b or d)", "(a until b) or d"),
    ("a |=> b |-> d", "a |=> (b |-> d)", "a |=> (b or d)"),
    ("a or b and d", "a or (b and d)", "(a or b) and d"),
    ("a throughout b[*3] within d[*4] intersect e[*4]", "((a throughout b[*3]) within d[*4]) intersect e[*4]",
     "a throughout (b[*3] within (d[*4] intersect e[*4]))"),
    ("always [1:3] a |-> b", "always [1:3] (a |-> b)", "a |-> always [1:3] b"),
    ("if (x) a else b |-> d", "if (x) a else (b |-> d)", "b |-> if (x) a else d"),
    ("if (x) a else b or d", "if (x) a else (b or d)", "(if (x) a else b) or d"),
    ("a #-# b implies d until_with e", "a #-# (b implies (d until_with e))", "(a #-# b) implies d until_with e"),
    ("@(posedge k) (@(posedge k) a |-> b) or (@(posedge k) d ##1 e)", "(a |-> b) or (d ##1 e)",
     "a |-> b or (d ##1 e)"),
    ("case (x) 1, 2: a; default: b; endcase", "if (x == 1 || x == 2) a else b", "if (x == 1) a else b"),
    ("case (x) 1, 2: a |-> b; default: d; 3: e; endcase", "if (x == 1 || x == 2) (a |-> b) else if (x == 3) e else d",
     "if (x == 1 || x == 2) (a |-> b) else d"),
    ("(a |-> b) implies d", "not (a |-> b) or d", "a |-> b implies d"),
    ("(a |-> b) iff d", "((a |-> b) implies d) and (d implies (a |-> b))", "a |-> b iff d"),
    ("(a |-> b) and (not d or e)", "(a |-> b) and (!d or e)", "a |-> b and (not d or e)"),
    ("a + b * 2 == d && e || f", "(((a + (b * 2)) == d) && e) || f", "(a + b) * 2 == d && e || f"),
    ("a || b && d", "a || (b && d)", "(a || b) && d"),
    ("a ? b : d ? e : f", "a ? b : (d ? e : f)", "(a ? b : d) ? e : f"),
    ("a -> b -> d ? e : f", "a -> (b -> (d ? e : f))", "(a -> b) -> (d ? e : f)"),
    ("a & b == d", "a & (b == d)", "(a & b) == d"),
    ("!a - b - d << 1 < e", "((((!a) - b) - d) << 1) < e", "!a - (b - d) << 1 < e"),
    ("a - b - d << 1 < e", "((a - b - d) << 1) < e", "a - b - (d << 1) < e"),
    ("x inside {1, [2:3]} == y", "(x inside {1, [2:3]}) == y", "x inside {1, [2:3], y}"),
)

# Forms that stand for themselves, or for others without a bound.
FORMS = (
    ("a", "a"), ("a |-> b ##1 d", "a |-> b ##1 d"), ("a |-> ##[1:3] b", "a |-> ##[1:3] b"),
    ("!a ##1 1 |=> b[*2:4]", "!a ##1 1 |=> b[*2:4]"),
    ("a ##1 b or d[*2] |-> (a ##1 b) and (d throughout e ##1 f)",
     "a ##1 b or d[*2] |-> a ##1 b and d throughout e ##1 f"),
    ("a ##1 b intersect d ##1 e #-# not (a ##1 b)", "(a ##1 b intersect d ##1 e) ##0 (!a or ##1 !b)"),
    ("a #=# (b |-> d)", "a ##1 1 ##0 (!b or d)", "Vacuity"),
    ("##1 a #=# b ##1 d", "##1 a ##1 1 ##0 (b ##1 d)"), ("not a", "!a"), ("not not a", "a"),
    ("a implies (b |-> d)", "a ##0 b |-> d"), ("a |=> b |-> d", "a ##1 1 ##0 b |-> d"),
    ("(a |-> b) implies d", "a ##0 !b or d", "Vacuity"),
    ("(a iff b) and (a iff not d)", "!a == !b && !a != !d"), ("strong(a) iff b", "!a == !b"),
    ("nexttime nexttime[3] (a |-> b)", "##1 (##3 (!a or b))", "Vacuity"),
    ("always [1:4] (a |-> s_eventually [0:2] b)", "##[1:4] a |-> ##[0:2] b"),
    ("s_eventually [1:3] nexttime[2] a", "##[1:3] (##2 a)"), ("weak(a ##1 b) or strong(d)", "a ##1 b or d"),
    ("(a ##1 b)[*2] ##[1:2] d", "(a ##1 b)[*2] ##[1:2] d"), ("not ##[1:2] a", "##1 !a[*2]"),
    ("not (a or b)", "!(a || b)"), ("s_eventually [0:4] a", "##[0:4] a"),
    ("a |-> ##1 first_match(b[*2:3])", "a |-> ##1 b[*2:3]"),
    ("first_match(##[1:4] b) |-> d", "##1 (!b[*0:3] ##1 b) |-> d"),
    ("first_match(a ##[0:2] b) |-> d", "a ##0 (!b[*0:2] ##1 b) |-> d"), ("first_match(b[*2:5]) |-> d", "b[*2] |-> d"),
    ("first_match(a[*0] ##[0:3] b) |-> d", "a[*0] ##1 (!b[*0:2] ##1 b) |-> d"),
    ("first_match(a[*0] ##[2:3] b) |-> d", "a[*0] ##2 (!b[*0:1] ##1 b) |-> d"),
    ("a within b[*3] |-> d", "##[0:2] a and b[*3] |-> d"),
    ("a within b[*1:2] |-> d", "1[*0:2] ##1 (a ##1 1[*0:2]) intersect b[*1:2] |-> d"),
    ("a |-> ##[60:180] b", "a ##0 (##60 1) |-> ##[0:120] b"),
    ("a |-> ##[3:125] b[*5]", "a ##0 (##3 1) |-> ##[0:122] b[*5]"),
    ("q.triggered |-> b", "$past(a) && b || $past(a, 2) && b |-> b"),
    ("a && r.triggered", "a && $past(1'd1, 2) && b"), ("u(a ##1 b).triggered || u(d).ended", "$past(a) && b || d"),
    ("@(posedge k) @(posedge k) a |=> @(posedge k) b and d", "a |=> b && d"),
    ("disable iff (y) a |=> b", "disable iff (y) a |=> b"),
    # sequences in one another, in the fewest brackets
    ("a ##[0:63] b", "a ##[0:63] b"), ("##2 (a ##1 b)", "##2 (a ##1 b)"), ("##2 a ##1 (##1 b)", "##2 a ##1 (##1 b)"),
    ("d ##1 (a && b)[*0:2]", "d ##1 (a && b)[*0:2]"), ("(a ##1 b)[*2]", "(a ##1 b)[*2]"),
    ("a[*2][*1:3]", "(a[*2])[*1:3]"),
    ("(a ##1 b) and d[*2] or (b or (a ##1 d))", "a ##1 b and d[*2] or (b or a ##1 d)"),
    ("(a or (b ##1 d)) and (b and (d ##1 e))", "(a or b ##1 d) and (b and d ##1 e)"),
    ("a[*2] intersect (b[*2] intersect (d or (e ##1 a)))", "a[*2] intersect (b[*2] intersect (d or e ##1 a))"),
    ("!b throughout (!(a && b) throughout (a ##[1:2] b))", "!b throughout !(a && b) throughout a ##[1:2] b"),
    ("1", "1"), ("0", "0"), ("!(a && b)", "!(a && b)"), ("(a && b) ##3 a ##1 (a || b)", "(a && b) ##3 a ##1 (a || b)"),
    ("(a && b)[*1:2] |-> a && b", "(a && b)[*1:2] |-> a && b"),
    # refused: what is no property, and what is too much
    ("a |-> always b", "Always"), ("always a", "Always"), ("not s_eventually a", "Always"), ("a until b", "NeedsBound"),
    ("first_match(a ##[1:2] b ##1 d) |-> e", "TooHeavy"), ("a[*0] |-> b", "Degenerate"),
    ("a ##1 b intersect d", "Degenerate"), ("a[*3] within b |-> d", "Degenerate"),
    ("a ##0 first_match(b[*0:2])", "AdmitsEmpty"), ("first_match(a[*0] ##0 b) or d |-> e", "Degenerate"),
    ("a[*0:1]", "AdmitsEmpty"), ("a |-> b[*0:1]", "AdmitsEmpty"), ("a ##[0:127] b", "TooHeavy"),
    ("§a ##[1:128] b", "BadBound"), ("a ##[§2:1] b", "BadBound"), ("a |-> ##200 b", "BadBound"),
)

# Forms that use the bound, which is 9.
BOUNDED = (
    ("a |-> ##[2:$] b", "a |-> ##[2:9] b"), ("b[->2] |-> d", "(!b[*0:9] ##1 b)[*2] |-> d"),
    ("b[=1:2] |-> d", "(!b[*0:9] ##1 b)[*1:2] ##1 !b[*0:9] |-> d"), ("s_eventually a", "##[0:9] a"),
    ("not always a", "##[0:9] !a"), ("(a and b) until d", "(a && b)[*0:9] ##1 d"),
    ("a |-> b s_until_with (d |-> e)", "a |-> b[*0:9] ##1 (b ##0 (!d or e))", "Vacuity Bounded"),
    ("a |-> b[=1]", "a |-> (!b[*0:9] ##1 b)[*1]"), ("b[->3] |=> d", "(!b[*0:9] ##1 b)[*3] ##1 1 |-> d"),
    ("a ##0 b[=0:1]", "a ##0 ((!b[*0:9] ##1 b)[*0:1] ##1 !b[*0:9])"),
    ("a[->1:2] ##1 b[=3]", "(!a[*0:9] ##1 a)[*1:2] ##1 (!b[*0:9] ##1 b)[*3]"),
    ("a |-> ##[10:$] b", "BadBound"),
)

# Properties that have a local variable `v`; without a dump its type isn't looked at, and a note says so.
LOCALS = (
    ("(a, v = d) ##2 b |=> v == f", "a ##2 b |=> $past(d, 3) == f"),
    ("(a, v = d) |-> ##1 (b, v = v) ##1 v == f", "a |-> ##1 b ##1 ($past($past(d)) == f)"),
    ("s", "a ##1 b[*2] ##1 ($past(d, 3) == e)"), ("(a, v = d) |-> v == f", "a |-> {d} == f"),
    ("(a, v = d) |=> ##[0:2] b && v == e",
     "a |=> b && $past(d) == e or ##1 (b && $past(d, 2) == e or ##1 (b && $past(d, 3) == e))"),
    ("(a, v = d) ##[1:2] b ##1 v == e", "a ##1 (b ##1 ($past(d, 2) == e) or ##1 (b ##1 ($past(d, 3) == e)))"),
    ("(a, v = d) ##1 (b or f ##0 d) |-> v", "a ##1 (b or f ##0 d) |-> $past(d)"),
    ("first_match(a ##1 b, v = d) |=> v == e", "a ##1 b |=> $past(d) == e"),
    ("##1 a #=# (b, v = f) ##1 d", "##1 a ##1 1 ##0 (b ##1 d)", ""),
    ("(a, v = d) ##[1:2] b |-> v == f", "LocalVar"), ("(a, v = d) |-> (v == f)[*2]", "LocalVar"),
    ("(a, v = d) or b |-> v == f", "LocalVar"), ("v == f", "LocalVar"), ("(a[*0:1], v = d) ##1 f", "AdmitsEmpty"),
    ("(a, v = d) |-> (v throughout b ##1 f)", "LocalVar"), ("(§a, z = d) ##1 f", "UnknownLocal"),
)

# Texts that are no property, with the token at which it shows; where that is the end, the last one.
FAULTS = (
    ("a §|-> ", "Expected"), ("@(§negedge c) a", "ClockEdge"), ("@(posedge c §iff e) a", "ClockIff"),
    ("@(posedge c) §@(posedge d) a", "SecondClock"), ("a + §1.5", "Real"), ("p§::x", "Outside"),
    ("§\\a+b ", "NoWord"), ("a && §`N(b)", "UnknownMacro"), ("§accept_on (a) b", "Outside"),
    ("§200'd1", "WiderThan128"), ("a[0]§.b", "NoWord"), ("a ##1 b §throughout c", "Expected"),
    ("§\"s\" == a", "String"), ("@(posedge c§[0]) a", "ClockForm"), ("a == 8§'(b)", "Outside"),
    ("§int'(a) == 1", "Outside"), ("a |-> (§signed'(b) < 0)", "Outside"), ("(a + b)§'(c)", "Outside"),
    ("t§'(c)", "Outside"), ("a ==? §'hx12345678", "WiderThan128"), ("a ==? §'oz0000000000", "WiderThan128"),
    ("disable iff (r) §@(posedge c) a", "SecondClock"), ("@(posedge c) a |=> §@(posedge d) b", "SecondClock"),
    ("@(posedge c) a and §@(posedge c) b", "SecondClock"),
)

# Operators in the fewest brackets (11.3.2), those that stand for others, and fills, which take their context's width.
OPERATORS = (
    ("a === b", "a == b"), ("a !== b", "a != b"), ("(a || b) && c", "(a || b) && c"),
    ("a - (b - c) == d", "a - (b - c) == d"), ("a - b - c == d", "a - b - c == d"),
    ("a + (b + c) == d", "a + b + c == d"), ("(a & b) == c", "(a & b) == c"), ("a & b == c", "a & b == c"),
    ("!(a && b)", "!(a && b)"), ("~&v | ~(&w)", "~&v | ~(&w)"), ("!!a == b", "!(!a) == b"), ("a | |b", "a | |b"),
    ("(c ? a : b) == d", "(c ? a : b) == d"), ("(c ? a : d ? b : e) == x", "(c ? a : d ? b : e) == x"),
    ("v >>> 1 == w <<< 2", "v >> 1 == w << 2"), ("a -> b -> c", "!a || !b || c"), ("a <-> b", "!a == !b"),
    ("-v == w", "1'd0 - v == w"), ("+v == w", "v == w"), ("a ^~ b ~^ c", "a ~^ b ~^ c"), ("2 ** i == w", "1 << i == w"),
    ("{a, b[3:0], {2{c}}, d[1 +: 2]} == x", "{a, b[3:0], {c, c}, d[2:1]} == x"),
    ("x inside {1, [2:3]} == y", "(x == 1 || x >= 2 && x <= 3) == y"),
    ("v == -1", "v == 1'd0 - 1"), ("8'hff == v", "8'd255 == v"), ("4'sd3 == v", "4'd3 == v"), ("v == '1", "v == ~1'd0"),
    ("v == '0", "v == 1'd0"), ("v == (a ? '1 : w)", "v == (a ? ~1'd0 : w)"), ("s == BUSY", "s == 2'd1"),
    ("v ==? 4'b1??0", "(v & ~4'd6) == 4'd8"), ("v !=? 4'b1??0", "(v & ~4'd6) != 4'd8"), ("v ==? 3", "v == 3"),
    ("v ==? 4'b1?0x", "(v & ~4'd5) == 4'd8"), ("v == 16 'hF_f", "v == 16'd255"),
    ("v ==? 12'hx1", "(v & ~12'd4080) == 12'd1"), ("v == 4'd17", "v == 4'd1"), ("v == 8'sd255", "v == 8'd255"),
    ("v == 1_000", "v == 1000"), ("v ==? 'hx1234567", "(v & 268435455) == 19088743"),
    ("v inside {1, [3:5], 4'b1?01}", "v == 1 || v >= 3 && v <= 5 || (v & ~4'd4) == 4'd9"),
    ("v inside {[0:5], [7:$]}", "v <= 5 || v >= 7"), ("v * 5 == w", "0 + v + (0 + v << 2) == w"),
    ("8'd6 * v == w", "(8'd0 + v << 1) + (8'd0 + v << 2) == w"), ("v / 4 == w", "0 + v >> 2 == w"),
    ("v % 8 == 1", "(v & 7) == 1"),
)

# Selects, of names and of all else; several bits of an expression where they count alone.
SELECTS = (
    ("v[3] && v[7:4] == 1", "v[3] && v[7:4] == 1"), ("v[4 +: 4] == v[7 -: 4]", "v[7:4] == v[7:4]"),
    ("v[i]", "(v >> i & 1'd1) != 1'd0"), ("{a, b}[1]", "({a, b} >> 1 & 1'd1) != 1'd0"),
    ("{a, b, c}[2:1] == 3", "({a, b, c} >> 1 & 2'd3) == 3"), ("{2{a, b}} == 4'd9", "{a, b, a, b} == 4'd9"),
    ("v[i +: 4] == w", "(v >> i & 4'd15) == w"), ("v[i +: 4]", "v >> i & 4'd15"), ("§v[i +: 4] == w + 1", "Width"),
    ("§v[i +: 4] == ~w", "Width"), ("§v[i +: 2] == x << 1", "Width"), ("§v[i +: 4] == '1", "Width"),
    ("v[i +: 2] == x >> 1", "(v >> i & 2'd3) == x >> 1"), ("§{a, b, c}[1:0] + 1 == w", "Width"),
    ("&§v[i +: 2]", "Width"), ("v[i +: 4] > (a ? w : x)", "(v >> i & 4'd15) > (a ? w : x)"),
    ("(v[i +: 2] & w) == x", "(v >> i & 2'd3 & w) == x"), ("(§v[i +: 2] & ~w) == x", "Width"),
    ("!v[i +: 2]", "!(v >> i & 2'd3)"), ("|v[i +: 2]", "|(v >> i & 2'd3)"),
    ("v[i +: 4] inside {3, w}", "(v >> i & 4'd15) == 3 || (v >> i & 4'd15) == w"), ("§v[0:3]", "SliceRange"),
    ("§v[2 -: 4]", "SliceRange"), ("§v[i -: 4]", "Outside"), ("§v[i +: 0]", "SliceRange"),
)

# System functions of bits and widths, and of earlier ticks.
FUNCTIONS = (
    ("$countones(v) == 1", "$onehot(v)"), ("$countones(v) <= 1", "$onehot0(v)"), ("$countones(v) != 1", "!$onehot(v)"),
    ("$countones(v) < 2", "$onehot0(v)"), ("1 < $countones(v)", "!$onehot0(v)"), ("$countones(v) == 0", "~|v"),
    ("$countones(v) >= 1", "|v"), ("$countones({v[1:0], a == b}) == 2", "0 + v[0] + v[1] + (a == b) == 2"),
    ("§$countones(v) == 3", "NeedsWidths"), ("$bits({v[3:0], 2'b0}) == 6", "6 == 6"),
    ("§$bits(v) == 6", "NeedsWidths"),
    ("$clog2(9) == w", "4 == w"), ("$clog2(8) == w", "3 == w"), ("$clog2(1) == w", "0 == w"),
    ("$sampled(a + b) == c", "{a + b} == c"), ("$sampled(a)", "a"), ("$unsigned(a - b) > c", "{a - b} > c"),
    ("$past(a) && $past(v, 2) == 3", "$past(a) && $past(v, 2) == 3"),
    ("$past(v, 70) == w", "$past($past(v, 64), 6) == w"), ("$past(v, 128) == w", "$past($past(v, 64), 64) == w"),
    ("$rose(a) && $fell(b) || $stable(v) && $changed(w)", "$rose(a) && $fell(b) || $stable(v) && $changed(w)"),
    ("$onehot(v) || $onehot0(w)", "$onehot(v) || $onehot0(w)"),
    ("$past(v, 2, en) == w",
     "counter r__past1 [128] load(en, {v});\ncounter r__past2 [128] load(en, r__past1);\nr__past2 == w"),
    ("$past(v, , en) == w", "counter r__past1 [128] load(en, {v});\nr__past1 == w"),
    ("$past(a.b, , c[i]) && $root.d",
     "counter r__past1 [128] load((c >> i & 1'd1) != 1'd0, {a.b});\nr__past1 && d"),
    ("$past(a == b, 1, en) + v == w", "counter r__past1 [1] load(en, {a == b});\nr__past1 + v == w"),
    ("§$past(v, 1, en) == w + 1", "NeedsWidths"),
)

# What no expression of a rule can say.
REFUSED = (
    ("§$isunknown(v)", "XValue"), ("v == §4'b1x00", "XLiteral"), ("v == §'x", "XLiteral"),
    ("§$signed(v) > 1", "Signed"), ("§$countones(v) - 3 < 0", "Signed"), ("§(a ? -8'sd1 : 8'sd1) < 4'sd2", "Signed"),
    ("§4'sd15 == $countones(v[3:0])", "Signed"), ("§1.5 < v", "Real"), ("v == §\"abc\"", "String"),
    ("§f(v)", "Function"),
    ("§\\bus*x  == 1", "NoWord"), ("§\\or  == 1", "NoWord"), ("§129'd0 == v", "WiderThan128"),
    ("§{129{a}} == v", "BadBound"), ("§{0{a}} == v", "BadBound"),
    ("§v / 3 == 1", "Divide"), ("§v % w == 1", "Divide"), ("§v * w == 1", "Multiply"),
    ("§v * 511 == 1", "Multiply"), ("§3 ** i == 9", "Outside"), ("§$time > 3", "Outside"),
    ("§$past(v, 0)", "BadBound"), ("§$past(v, i)", "NotConstant"), ("§$past(v, 1, 1, @(posedge c))", "SecondClock"),
    ("!$past(v, 4096)", "TooHeavy"), ("§$past()", "Arguments"),
)

# Signals of a dump, and expressions whose names are those of the scope `tb` in it.
DUMP = """$scope module tb $end $var wire 1 k k $end $var wire 1 a a $end $var wire 8 v v [7:0] $end
$var wire 3 w w [2:0] $end $scope module u $end $var wire 5 x x [4:0] $end $upscope $end $upscope $end
$scope module top $end $var wire 1 y x $end $upscope $end $enddefinitions $end
"""
SCOPED = (
    ("\\a  == 1 && $root.top.x && tb.v && u.x", "tb.a == 1 && top.x && tb.v && tb.u.x"),
    ("$countones(a) == 3", "0 + tb.a == 3"), ("$countones(w) == 3", "0 + tb.w[0] + tb.w[1] + tb.w[2] == 3"),
    ("$countones({~a, w[2:1]}) == 3", "0 + {~tb.a} + tb.w[1] + tb.w[2] == 3"),
    ("$countones(w[1:0] & 2'd1) == 2 + 1", "0 + (((tb.w[1:0] & 2'd1) >> 0 & 1'd1) != 1'd0)"
     " + (((tb.w[1:0] & 2'd1) >> 1 & 1'd1) != 1'd0) == 3"),
    ("$countones(~w[1:0]) == 2 + 1",
     "0 + (({~tb.w[1:0]} >> 0 & 1'd1) != 1'd0) + (({~tb.w[1:0]} >> 1 & 1'd1) != 1'd0) == 3"),
    ("$bits({v, a}) == 9", "9 == 9"),
    ("$past(v, 1, a) == w + 1", "counter r__past1 [8] load(tb.a, {tb.v});\nr__past1 == tb.w + 1"),
    ("$past(v, , a) |-> a ##1 1", "counter r__past1 [8] load(tb.a, {tb.v});\nr__past1 |-> tb.a ##1 1"),
    ("§u.z == w", "UnknownName"),
    ("disable iff (!$root.top.x) a |=> a && w", "disable iff (!top.x) tb.a |=> tb.a && tb.w"),
)

# What grows: before and after `v`, how often, what stands at the end, and whether it is written.
GROWTH = (
    ("", " || w", 800, "", True), ("w && ", "", 800, "", True), ("!(", ")", 29, " == w", True),
    ("!(", ")", 200, " == w", False), ("{", "}", 60, " == w", True), ("{", "}", 90, " == w", False),
    ("(", " inside {1, [2:3]})", 12, "", False), ("(", " * 7)", 30, " == w", False), ("{2{", "}}", 40, " == w", False),
    ("$past(", ", 64)", 61, "", True), ("$past(", ", 64)", 64, "", False), ("(", ")", 4000, "", False),
    ("a ##1 (", ")", 60, "", True), ("a ##1 (", ")", 70, "", False),
    ("a ##1 ", "", 63, "", True), ("a ##1 ", "", 64, "", False),
    # 127 booleans at the most, of both sides and with that of `disable iff`
    ("a ##1 ", " |-> a" + " ##1 a" * 62, 1, "", True),
    ("a ##1 " * 63, " |-> a" + " ##1 a" * 62, 1, "", True), ("a ##1 " * 63, " |-> a" + " ##1 a" * 63, 1, "", False),
    ("disable iff (x) " + "a ##1 " * 63, " |-> a" + " ##1 a" * 61, 1, "", True),
    ("disable iff (x) " + "a ##1 " * 63, " |-> a" + " ##1 a" * 62, 1, "", False),
)

# Forms of each kind; what is written of one was shown to be what it means, by a bound of 9.
MEANT = """a ##[0:2] b |-> z; ##[1:$] b |-> z; a[*2:4] ##1 b[*] |-> z; b[->2] |-> z; b[->1:2] ##1 c |-> z; b[=1:2] |-> z
a throughout ##[1:2] b |-> z; (a ##1 b) and (c or d) |-> z; (a && b) or !c |-> z; 1 and b |-> z
(a ##[1:3] b) intersect (c[*1:4]) |-> z; a within b[*3] |-> z; (a ##1 b) within c[*1:4] |-> z
first_match(a ##[0:2] b) |-> z; first_match(a[*0] ##[0:3] b) |-> z; first_match(a[*0] ##[2:3] b) |-> z
first_match(##[1:3] (a and b)) |-> z; first_match(b[*1:3]) |-> z; first_match(b[->2]) |-> z
first_match(a ##1 b) |-> z; !!a ##1 b; a |-> first_match(##[1:3] b); a |-> b[=2]; a |=> b |-> c #-# not d
a #=# strong(##1 b) and weak(c); not (a iff b); (!a iff b) and (a iff !b); 1 iff b; not (a or !b implies c)
a implies (##1 b); (a ##1 b) implies c; if (a) b else if (!c) d; case (v2) 1, 2: a |-> b, default: c, 3: d, endcase
case (v2) 1: a, endcase; nexttime[3] (a |-> s_nexttime b); always [1:4] (a |-> s_eventually [0:2] b); not always a
s_eventually (a ##1 b); a until (b and c); a s_until_with b; a |-> ##[60:180] b; ##[3:125] b[*5]"""

# A file after a default clock, each assertion that is written with its property, and what is told, mark by mark.
ITEMS = (
    ("a: assert property (x); assume property (y) $display(\"n\"); else $error;", "a: x\nassert_2: y"),
    ("module m #(parameter N = 3, logic [1:0] K = 2'd1) (input a); localparam P = N + 1, Q = 2; "
     "r: assert property (w == N && x == K && y == P && z == Q); endmodule : m",
     "r: w == 3 && x == 2'd1 && y == 4 && z == 2"),
    ("property p(a, b = 1); a |-> b; endproperty : p sequence s; x ##1 y; endsequence r: assert property (p(s));",
     "r: x ##1 y |-> 1"),
    ("always @(posedge c) begin if (x) §assert (y); else begin §cover (z); end end r: restrict property (q);", "r: q",
     "refused assert_1 Immediate", "refused assert_2 Immediate"),
    ("initial begin case (x) 1: begin end endcase end §assert (a); §assert final (b); §c: cover property (d);", "",
     "refused assert_1 Immediate", "refused assert_2 Immediate", "note c Cover"),
    ("typedef enum logic [1:0] {A, B = 2, C} t; let f(x) = x + 1; typedef struct { int y; } u; "
     "r: assert property (w == A && x == B && y == C && z == f(v));",
     "r: w == 2'd0 && x == 2'd2 && y == 2'd3 && z == v + 1"),
    ("for (genvar i = 0; i < M; i++) begin : g §assert property (x[i]); end if (N) §assert property (y);", "",
     "refused assert_1 Generate", "refused assert_2 Generate"),
    ("function f; §assert (x); endfunction class g; §assert property (z); endclass task t; endtask foo bar; "
     "assert property (y);", "assert_3: y", "refused assert_1 Immediate", "refused assert_2 Immediate"),
    ("a: §assert property (x) b: assert property (y); §assert property x;", "b: y", "refused a Expected",
     "refused assert_3 Expected"),
    ("junk ( stray ; module m; endmodule §`N(x) assert property (y);", "assert_1: y", "note `N UnknownMacro"),
    ("a: §assert property (x |-> (y; b: assert property (z);", "b: z", "refused a Expected"),
    ("a: §assert property (x |-> y ] z ##1 w); b: assert property (z);", "b: z", "refused a Expected"),
    ("a: §assert property (x |-> {y } } ##1 w); b: assert property (z);", "b: z", "refused a Expected"),
    ("module m; a: §assert property (x |-> (y; endmodule c: assume property (z);", "c: z", "refused a Expected"),
    ("a: §assert property (x |-> y; property p; z; endproperty default disable iff (r); §b: cover property (q); "
     "c: assert property (p);", "c: disable iff (r) z", "refused a Expected", "note b Cover"),
    ("r: §asert property (x); §assret property (y) else $error; b: assert property (z);", "b: z",
     "refused r Expected", "refused assert_2 Expected"),
    ("a: §assert property (x) |-> y); b: §assert property (y)); c: assert property (z);", "c: z",
     "refused a Expected", "refused b Expected"),
    ("§a: cover property (x ##1 (y; b: §assert (x; c: assert property (z) {t, u} = 2;", "c: z", "note a Cover",
     "refused b Immediate"),
    ("a: §assert property (x) §asert property (y); s: §asert property ((z; b: assert property (case (x) 1: y; "
     "default: z; endcase);", "b: (x == 1) ##0 y or !(x == 1) ##0 z", "refused a Expected", "refused assert_2 Expected",
     "refused s Expected"),
    # statements that end by a macro without a semicolon, and declarations after these
    ("if (N) a: §assert property (x) else `E(m) localparam P = 1; b: assert property (y == P) else foreach (q[i]) "
     "`E(q[i]) localparam Q = 2; c: assert property (z == Q);", "b: y == 1\nc: z == 2", "refused a Generate"),
    ("a: assert property (x) `M; else `E(m) wire §w = y; always @(posedge c) if (x) `E wire §v; initial fork x; "
     "join_none b: assert property (y) else `E.f(m); wire §u; d: assert property (u && v && w);",
     "a: x\nb: y\nd: u && v && w", "note w Declared", "note v Declared", "note u Declared"),
    ("a: assert property (x) else begin y; end wire §w; b: assert property (z) if (y) `M else for (;;) `E wire §v; "
     "c: assert property (z) else randcase 1: y; endcase wire §u; d: assert property (u && v && w);",
     "a: x\nb: z\nc: z\nd: u && v && w", "note w Declared", "note v Declared", "note u Declared"),
    ("a: §assert property (x) else $error(m) default disable iff (r); b: assert property (y) if (z) u; else v; "
     "else w; wire §t; c: §assert (x) `M wire §s; d: assert property (s && t);",
     "b: disable iff (r) y\nd: disable iff (r) s && t", "refused a Expected", "note t Declared", "refused c Immediate",
     "note s Declared"),
    # declarations in other forms; a packed array of a type is unsigned as a whole (7.4.1)
    ("module m #(parameter A, B = 2) import p::*; (input c); r: assert property (x == B); "
     "s: assert property (x == §A); endmodule module n(input d) import p::*; wire §e; "
     "t: assert property (d && e); endmodule",
     "r: x == 2\nt: d && e", "refused s NotConstant", "note e Declared"),
    ("var enum {A, B} §s; struct { enum {C} k; } t; p::t u; t [1:0] v; w x[2]; assign y = z; assign y[0] = z; "
     "r: assert property (h == A && i == B && j == C && s);", "r: h == 0 && i == 1 && j == 0 && s",
     "note s Declared"),
    ("p::t §u; tt [1:0] §v; w x[2]; clocking d @(posedge k); input z; endclocking : d §r: assert property (@(d) u); "
     "s: assert property (@d v); n: assert property (§x[1]);", "r: u\ns: v", "note u Declared", "note v Declared",
     "note r UnknownType", "refused n Array"),
    ("function automatic logic [1:0] f(input a); return a; endfunction import \"DPI-C\" function int g(); "
     "function void c::h(); endfunction a: assert property (§f == 1); b: assert property (§g == 1); "
     "d: assert property (h == 1);", "d: h == 1", "refused a Function", "refused b Function"),
    ("global clocking g @(posedge c); endclocking wire §a; virtual class h; int b; endclass : h wire §d; "
     "primitive u(o, i); output o; input i; table 0 : 1; endtable endprimitive wire §e; "
     "r: assert property (a && b && d && e);", "r: a && b && d && e",
     "note a Declared", "note d Declared", "note e Declared"),
    ("config f; design m; endconfig : f wire §a; initial randsequence (s) s : t { x; }; endsequence wire §b; "
     "initial §expect (@(posedge c) x) else y; wire §d; r: assert property (a && b && d);", "r: a && b && d",
     "note a Declared", "note b Declared", "note file Expect", "note d Declared"),
    ("class c; class d; endclass typedef class f; int e; endclass : c wire §\\u ; X localparam \\N = 1; "
     "extern function f(int a); modport m(clocking h); let x = y; r: assert property (z == N && x && u && e);",
     "r: z == 1 && y && u && e", "note u Declared"),
)

# A file, the one assertion that is written after its label, and what is told, mark by mark.
OPENED = (
    ("assert property (@(posedge c.k) a |-> b);", "@(posedge c.k) a |-> b"),
    ("property p(x, y = 2); @(posedge c) disable iff (r) x |=> ##y z; endproperty assert property (p(a || b));",
     "@(posedge c) disable iff (r) a || b |=> ##2 z"),
    ("property p; int x; @(posedge c) disable iff (r) a; endproperty assert property (p);",
     "@(posedge c) disable iff (r) a"),
    ("module m; default clocking @(posedge c); endclocking default disable iff (r); parameter N = 2 + 1; "
     "assert property (a ##N b); endmodule", "@(posedge c) disable iff (r) a ##3 b"),
    ("default clocking cb @(posedge c); endclocking default disable iff (!r); clocking d @(posedge e); input x; "
     "endclocking : d assert property (x);", "@(posedge c) disable iff (!r) x"),
    ("sequence s(x, n); x[*n] ##1 y; endsequence let f(u) = !u; "
     "assert property (@(posedge c) s(f(a), 3) |-> s(.n(1), .x(b)).triggered);",
     "@(posedge c) !a[*3] ##1 y |-> $past(b) && y"),
    ("sequence s; int v; (a, v = d) ##1 (b == v); endsequence §assert property (@(posedge c) s |-> s);",
     "@(posedge c) a ##1 (b == $past(d)) |-> a ##1 (b == $past(d))", "note assert_1 UnknownType"),
    ("typedef enum logic [1:0] {A, B = 2, C} t; localparam [3:0] K = 5; "
     "assert property (@(posedge c) x == C || y == K - A);", "@(posedge c) x == 2'd3 || y == 4'd5 - 2'd0"),
    ("localparam W = 8, N = W > 4 ? $clog2(9) : 1; assert property (@(posedge c) a ##N b);", "@(posedge c) a ##4 b"),
    ("assert property (@(posedge c) v[3:1] && w[i]);", "@(posedge c) v[3:1] && (w >> i & 1'd1) != 1'd0"),
    ("default clocking @(posedge c); endclocking property p; @(posedge d) b |-> b; endproperty "
     "assert property ((p));", "@(posedge d) b |-> b"),
    ("sequence s; @(posedge d) b; endsequence assert property (s |=> s);", "@(posedge d) b |=> b"),
    ("property p(x); @(posedge d) x |-> x; endproperty assert property (p(b));", "@(posedge d) b |-> b"),
    ("parameter K = 3; assert property (@(posedge c) (w & ~K) == 5 - K + 1);", "@(posedge c) (w & ~3) == 3"),
    ("assert property (@(posedge c) w == 3 - 5 + 4 && v == 3 - 5);", "@(posedge c) w == 2 && v == 3 - 5"),
    ("assert property (@(posedge c) w[3 - 5 + 4] && v < (1 << 33));", "@(posedge c) w[2] && v < 1 << 33"),
    ("package p; parameter K = 3; endpackage package q; parameter K = 4, L = 5; endpackage module m; import p::*; "
     "import q::*; import p::*; assert property (@(posedge c) x == L); endmodule", "@(posedge c) x == 5"),
    ("package p; parameter K = 3; endpackage package q; parameter K = 4; endpackage module m; import p::*; "
     "import q::K; assert property (@(posedge c) x == K); endmodule", "@(posedge c) x == 4"),
    ("package p; parameter K = 3; endpackage module m #(parameter A = 1) import p::*; (input c); "
     "struct { enum {I, J} k; } s; typedef enum {E[2]} t; assert property (@(posedge c) x == K && y == J && E1x); "
     "endmodule", "@(posedge c) x == 3 && y == 1 && E1x"),
)

# Scopes and notes: a default clock counts in its module alone, and a word in what an unknown macro is given is told.
NOTED = ("§`include \"x.svh\"\nmodule m; default clocking c @(posedge k); endclocking default disable iff (r); "
         "§bind m n u(.*); §`N(§assert) b: assert property (y); endmodule §a: assert property (x); "
         "initial §expect (y);", "note file Include", "note file Bind", "note `N UnknownMacro",
         "refused assert_1 Immediate", "refused a NoClock", "note file Expect")

# A file whose assertion is refused, and the code.
UNOPENED = (
    ("§assert property (a);", "NoClock"),
    ("sequence s; @(posedge d) a; endsequence assert property (@(posedge c) §s);", "SecondClock"),
    ("property p; §p; endproperty assert property (@(posedge c) p);", "Recursive"),
    ("sequence s(a); a; endsequence assert property (@(posedge c) §s(x, y));", "Arguments"),
    ("sequence s(a); §a; endsequence assert property (@(posedge c) s);", "Arguments"),
    ("assert property (@(posedge c) §f(x));", "Function"),
    ("assert property (@(posedge c) a ##§n b);", "NotConstant"),
    ("assert property (@(posedge c) a ##[§3:2] b);", "BadBound"),
    ("assert property (@(posedge c) (§a, v = b) ##1 c);", "UnknownLocal"),
    ("property p; a; endproperty assert property (@(posedge c) §p |-> b);", "Expected"),
    ("property p; a §] b; endproperty assert property (@(posedge c) p);", "Expected"),
    ("property p; @(posedge d) b; endproperty §assert property (a |-> p);", "NoClock"),
    ("default clocking @(posedge c); endclocking property p; @(posedge d) b; endproperty §assert property (a |-> p);",
     "SecondClock"),
    ("default clocking @(posedge c); endclocking sequence s; @(posedge d) b; endsequence §assert property (s ##2 s);",
     "SecondClock"),
    ("default clocking @(posedge c); endclocking sequence s; @(posedge d) b; endsequence "
     "§assert property (s.triggered);", "SecondClock"),
    ("parameter [0:3] K = 8; assert property (@(posedge c) §K[0]);", "Outside"),
    ("typedef enum logic [5:2] {A = 8} t; assert property (@(posedge c) §A[5:4] == 2);", "Outside"),
    ("property p; disable iff (r) a; endproperty assert property (@(posedge c) x |-> §p);", "Outside"),
    ("package p; parameter K = 3; endpackage package q; parameter K = 4; endpackage module m; import p::*; "
     "import q::*; assert property (@(posedge c) x == §K); endmodule", "Outside"),
    ("typedef enum {A, E[3], F} t; assert property (@(posedge c) x == §E1);", "Outside"),
    ("typedef enum {E1[3:5] = 2} t; assert property (@(posedge c) x == §E14);", "Outside"),
    ("package p; parameter K = 3; endpackage package q; import p::*; export p::*; endpackage module m; "
     "import q::*; assert property (@(posedge c) x == §K); endmodule", "Outside"),
    ("package p; parameter K = 3; endpackage package q; import p::*; export *::*; endpackage module m; "
     "import q::K; assert property (@(posedge c) x == §K); endmodule", "Outside"),
    ("package p; endpackage module m; import p::K; assert property (@(posedge c) §K); endmodule", "Outside"),
    ("module m #(parameter N) (input c); assert property (@(posedge c) a ##§N b); endmodule", "NotConstant"),
    ("function f; endfunction assert property (@(posedge c) §f);", "Function"),
    ("import \"DPI-C\" function int g(); assert property (@(posedge c) §g == 1);", "Function"),
    ("property p a; endproperty assert property (@(posedge c) §p);", "Expected"),
    ("let h x; assert property (@(posedge c) §h);", "Expected"),
)

# Words, a file, what is written, what is told, and the status.
WHOLE = (
    ("--scope t.u", "r: assert property (@(posedge c) disable iff (!$root.r) a |=> a && b);\n",
     "r: assert property (@(posedge t.u.c) disable iff (!r) t.u.a |=> t.u.a && t.u.b);\n", "", 0),
    ("--scope t.u", "r: assert property (@(posedge c) a[*1:2] |-> a && b);\n",
     "r: assert property (@(posedge t.u.c) t.u.a[*1:2] |-> t.u.a && t.u.b);\n", "", 0),
    ("--scope t.u", "r_2: assert property (@(posedge t.c) $past(t.a, , t.b) |-> t.a);\n",
     "counter r_2__past1 [128] load(t.b, {t.a});\nr_2: assert property (@(posedge t.c) r_2__past1 |-> t.a);\n", "", 0),
    ("", "\\or : assert property (@(posedge c) a);\n", "", "f.sv:1:1: refused or NoWord: ", 2),
    ("--split", "r: assert property (@(posedge c) (a |=> ##[1:60] b) and (d |=> ##[1:80] e));\n",
     "r__1: assert property (@(posedge c) a |=> ##[1:60] b);\nr__2: assert property (@(posedge c) d |=> ##[1:80] e);\n",
     "f.sv:1:1: note r Renamed: r__1 and r__2\n", 0),
)


def unmarked(text):
    """A text without its marks, and the line and the column of each of them."""
    front, *rest = text.split("§")
    places = []
    for part in rest:
        places.append((front.count("\n") + 1, len(front) - front.rfind("\n")))
        front += part
    return front, places


def imported(shell, text, words):
    """The status, what is written, and what is told of a file: line, column, word, label and code."""
    put(shell, "f.sv", text)
    status, out, said = shell.run(["import", "f.sv", *words.split()])
    told = [(int(line), int(column), *more) for line, column, *more in MESSAGE.findall(said.decode())]
    return status, out.decode(), told


def is_code(wanted):
    """Whether what is wanted is the code of a refusal, and no text."""
    return wanted[:1].isupper()


def line_of(form, label):
    """The line of an assertion that is a form."""
    return f"{label}: assert property ({form});\n"


def with_local(form, label):
    """The line of an assertion of a property that has a local variable."""
    return f"property p_{label}; int v; {form}; endproperty {label}: assert property (p_{label});\n"


def texts_of(out, clock):
    """What is written of each label: its counters, a line each, and then its property."""
    found, front = {}, rf"((?:counter .*\n)*)(\w+): assert property \(@\(posedge {clock}\) "
    for counters, label, text in re.findall(rf"{front}(.*)\);\n", out):
        found[label] = (counters + text).replace(f"{label}__past", "r__past")
    return found


def try_rows(shell, head, rows, words="", line=line_of, clock="k", always=""):
    """Each row of a table, as an assertion of one file: its text and its notes, or its refusal and place."""
    marked = head + "".join(line(row[0], f"r{at}") for at, row in enumerate(rows))
    text, places = unmarked(marked)
    status, out, told = imported(shell, text, words)
    found, codes = texts_of(out, clock), [is_code(row[1]) for row in rows]
    shell.tally.note(f"{rows[0]}: status", 2 if all(codes) else 1 if any(codes) else 0, status)
    shell.tally.note(f"{rows[0]}: order", [f"r{at}" for at, code in enumerate(codes) if not code], list(found))
    for at, (form, wanted, *notes) in enumerate(rows):
        mine = [it for it in told if it[3] == f"r{at}"]
        if is_code(wanted):
            place = (places.pop(0),) if "§" in form else tuple(it[:2] for it in mine)
            shell.tally.note(f"{form} {mine}", (place, [("refused", wanted)]),
                             (tuple(it[:2] for it in mine), [(it[2], it[4]) for it in mine]))
        else:
            notes = notes[0] if notes else always
            shell.tally.note(f"{form}", (wanted, notes), (found.get(f"r{at}"), " ".join(it[4] for it in mine)))


def try_groups(shell):
    """How operators group: a text is that with all of its brackets, and another way is another text."""
    text = CLOCK + "".join(line_of(form, f"{name}{at}") for at, row in enumerate(GROUPS)
                           for name, form in zip(("form_", "same_", "other_"), row))
    found = texts_of(imported(shell, text, "--bound 9")[1], "k")
    for at, row in enumerate(GROUPS):
        form, same, other = (found.get(f"{name}_{at}") for name in ("form", "same", "other"))
        shell.tally.note(f"groups: {row}: {form} {same} {other}", (True, True, True),
                         (bool(form) and bool(other), form == same, form != other))


def try_tables(shell):
    """The tables of forms and of expressions."""
    try_rows(shell, SEQUENCES + CLOCK, FORMS)
    try_rows(shell, SEQUENCES + CLOCK, BOUNDED, "--bound 9", always="Bounded")
    try_rows(shell, LOCAL + CLOCK, LOCALS, line=with_local, always="UnknownType")
    try_rows(shell, CLOCK, FAULTS)
    for rows in (OPERATORS, SELECTS, FUNCTIONS, REFUSED):
        try_rows(shell, ENUM + CLOCK, rows)
    put(shell, "texts.vcd", DUMP)
    try_rows(shell, ENUM + CLOCK, SCOPED, "--scope tb --vcd texts.vcd", clock="tb.k")


def try_growth(shell):
    """Texts that grow come to an end, with a text or as too heavy."""
    text = CLOCK + "".join(line_of(f"{before * times}v{after * times}{end}", f"r{at}")
                           for at, (before, after, times, end, _) in enumerate(GROWTH))
    _, out, told = imported(shell, text, "")
    found, refused = texts_of(out, "k"), {it[3]: it[4] for it in told}
    for at, row in enumerate(GROWTH):
        shell.tally.note(f"growth: {row}", (row[4], None if row[4] else "TooHeavy"),
                         (bool(found.get(f"r{at}")), refused.get(f"r{at}")))


def try_meant(shell):
    """Forms of each kind are written: none is refused as one that isn't shown to be what it means."""
    forms = [re.sub(r",(?= default| 3:| endcase)", ";", it.strip()) for it in re.split("[;\n]", MEANT)]
    text = CLOCK + "".join(line_of(form, f"r{at}") for at, form in enumerate(forms))
    status, out, told = imported(shell, text, "--bound 9")
    shell.tally.note("forms that are meant", (42, 0, []), (len(texts_of(out, "k")), status,
                                                          [it for it in told if it[2] == "refused"]))


def try_files(shell):
    """Files of their own: what is written, and what is told at which place."""
    for text, written, *codes in ITEMS:
        look_at(shell, CLOCK + text, "".join(f"{it.replace(': ', ': assert property (@(posedge k) ', 1)});\n"
                                             for it in written.splitlines()), codes)
    for text, written, *codes in OPENED:
        look_at(shell, text, f"assert_1: assert property ({written});\n", codes)
    look_at(shell, NOTED[0], "b: assert property (@(posedge k) disable iff (r) y);\n", NOTED[1:])
    for text, code in UNOPENED:
        look_at(shell, text, "", [f"refused assert_1 {code}"])
    for words, text, written, said, status in WHOLE:
        put(shell, "f.sv", text)
        found = shell.run(["import", "f.sv", *words.split()])
        shell.tally.note(f"{words} {text}", (status, written, said),
                         (found[0], found[1].decode(), found[2].decode()[:len(said)] if said else found[2].decode()))


def look_at(shell, marked, written, codes):
    """A file has this text, and the messages of these codes at its marks, in their order."""
    text, places = unmarked(marked + "\n")
    status, out, told = imported(shell, text, "")
    wanted = [(*place, *code.split()) for place, code in zip(places, codes, strict=True)]
    refused = any(it[2] == "refused" for it in wanted)
    shell.tally.note(text, (2 if not written else 1 if refused else 0, written, wanted), (status, out, told))


def try_team_texts(shell):
    """All of these."""
    for part in (try_groups, try_tables, try_growth, try_meant, try_files):
        part(shell)
