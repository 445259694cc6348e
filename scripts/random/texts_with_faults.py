#!/usr/bin/env python3
"""Writes texts of crates/answers_texts and what each must answer: scripts/random/texts_with_faults.py

A fault's place is marked by a caret in the pieces below, and the answer is worked out from the marks and the order of
the kinds alone: Y1, Y2, Y3, Y4, Y7, Y8, Y9, Y5, Y6, then the lowest byte. No program of this repository is asked.
"""
import itertools
import pathlib
import sys

TOP = pathlib.Path(__file__).resolve().parents[2]
sys.path.insert(0, f'{TOP}/scripts/models')

from stored_parts import read_part, write_part

DATA = TOP / 'crates' / 'answers_texts'
ORDER = ['Y1 UnknownName', 'Y2 Duplicate', 'Y3 WiderThan128', 'Y4 SliceRange', 'Y7 OtherClock', 'Y8 CyclicSequence',
         'Y9 TooWide', 'Y5 Degenerate', 'Y6 AdmitsEmpty']
NAMES = [('top.clk', 1), ('top.a', 1), ('top.b', 1), ('top.d', 8), ('top.w', 100), ('top.v', 128), ('g', 8),
         # the first of two paths that are the same counts
         ('top.a', 2)]

FIRST = 'r: assert property (@(posedge top.clk) top.a |-> top.b);'


def on_clock(label, body):
    return f'{label}: assert property (@(posedge top.clk) {body});'


# with a select out of range, and a number of 128 bits
DISABLED = 't: assert property (@(posedge top.clk) disable iff (top.a) ^top.d[8]);'
ALL_ONES = "128'H" + 32 * 'F'


# one text for each kind of fault; two of them stand in one text without a fault of a third kind
PIECES = [
    ('Y1 UnknownName', on_clock('u', '^top.x')),
    ('Y2 Duplicate', '^' + on_clock('r', 'top.a')),
    ('Y3 WiderThan128', on_clock('v', '^{top.w, top.w} == 0')),
    ('Y4 SliceRange', on_clock('x', '^top.d[8]')),
    ('Y7 OtherClock', 'y: assert property (@(posedge ^top.b) top.a);'),
    ('Y8 CyclicSequence', 'sequence ^s; s ##1 top.a endsequence'),
    ('Y9 TooWide', on_clock('z', '^top.a[*64] ##1 top.a[*64]')),
    ('Y5 Degenerate', on_clock('p', '^top.a[*0] |-> top.b')),
    ('Y6 AdmitsEmpty', on_clock('q', 'top.a |-> ^top.b[*0:1]')),
]

# borders of each kind: (kind or None, text)
BORDERS = [
    ('Y1 UnknownName', 'sequence s; ^top.y endsequence ' + FIRST),
    ('Y1 UnknownName', 'counter c [2] add(c == 3, ^top.z); ' + FIRST),
    ('Y1 UnknownName', on_clock('t', 'top.a |-> ^s + top.b') + ' sequence s; top.a endsequence'),
    ('Y1 UnknownName', on_clock('t', 'top.a |-> top.b[*2] ##1 ^a')),
    ('Y1 UnknownName', 'r: assert property (@(posedge top.clk) disable iff (^top.r) top.a);'),
    ('Y1 UnknownName', on_clock('t', '(^s) == 1') + ' sequence s; top.a endsequence'),
    (None, 'r: assert property (@(posedge nothing.at.all) top.a);'),
    (None, on_clock('t', 's ##1 (s)') + ' sequence s; top.a endsequence'),
    (None, on_clock('top', 'top.a')),
    (None, on_clock('c', 'top.a') + ' assert property (@(posedge top . clk) top.b);'),
    ('Y2 Duplicate', 'counter c [2]; sequence ^c; top.a endsequence ' + FIRST),
    ('Y2 Duplicate', 'counter c [2]; ' + '^' + on_clock('c', 'top.a')),
    ('Y2 Duplicate', FIRST.replace('r: ', '') + ' ' + '^' + on_clock('assert_1', 'top.b')),
    ('Y2 Duplicate', on_clock('assert_2', 'top.a') + ' ^' + FIRST.replace('r: ', '')),
    ('Y2 Duplicate', on_clock('assert_2', 'top.a') + ' ^assume property (@(posedge top.clk) top.b);'),
    (None, on_clock('assert_3', 'top.a') + ' ' + FIRST.replace('r: ', '')),
    ('Y2 Duplicate', FIRST + ' ^' + FIRST + ' ' + FIRST),
    (None, on_clock('t', '{top.w, top.d, top.d, top.d, top.a, top.a, top.a, top.a} == 0')),
    ('Y3 WiderThan128', on_clock('t', '^{top.w, top.d, top.d, top.d, top.a, top.a, top.a, top.a, top.a} == 0')),
    ('Y3 WiderThan128', on_clock('t', '^{{top.v, top.a}} == 0')),
    (None, on_clock('t', '{top.v} == 0')),
    ('Y3 WiderThan128', 'sequence s; ^{top.v, top.a} endsequence ' + FIRST),
    (None, on_clock('t', 'top.d[7:0] == 0')),
    (None, on_clock('t', 'top.a[0]')),
    ('Y4 SliceRange', on_clock('t', 'top.d[7] && ^top.d[8:1] && top.d[9]')),
    ('Y4 SliceRange', on_clock('t', '^top.d[1:3]')),
    ('Y4 SliceRange', on_clock('t', '^top.a[1]')),
    ('Y4 SliceRange', 'counter c [4]; ' + on_clock('t', '^c[4]')),
    (None, 'counter c [4]; ' + on_clock('t', 'c[3:0] == 2')),
    (None, FIRST + ' t: assert property (@(posedge top . clk) top.b);'),
    ('Y7 OtherClock', FIRST + ' t: assert property (@(posedge ^top.clk.x) top.b);'),
    ('Y7 OtherClock', FIRST + ' t: assert property (@(posedge ^top.b) top.b); '
     'w: assert property (@(posedge top.a) top.b);'),
    ('Y8 CyclicSequence', 'sequence t; s endsequence sequence ^s; top.a ##1 u endsequence sequence u; s endsequence '
     + FIRST),
    ('Y8 CyclicSequence', 'sequence t; top.a ##1 s endsequence sequence u; t endsequence sequence ^s; s endsequence '
     + on_clock('r', 'u')),
    ('Y8 CyclicSequence', 'sequence ^s; top.a throughout (top.b or t) endsequence sequence t; s[*0] endsequence '
     + FIRST),
    (None, 'sequence s; t ##1 t endsequence sequence t; u and u endsequence sequence u; top.a endsequence '
     + on_clock('r', 's')),
    (None, on_clock('t', 'top.a[*63] ##1 top.a[*63]')),
    ('Y9 TooWide', on_clock('t', '^top.a[*64] ##1 top.a[*64]')),
    (None, on_clock('t', 'top.a[*125] |=> top.b')),
    ('Y9 TooWide', on_clock('t', '^top.a[*126] |=> top.b')),
    (None, on_clock('t', 'top.a[*127]')),
    ('Y9 TooWide', on_clock('t', 'top.a |-> ((^top.a[*127] ##1 top.b))')),
    (None, on_clock('t', '(top.a[*127] ##1 top.a[*127])[*0] or top.b |-> top.a')),
    ('Y6 AdmitsEmpty', on_clock('t', '(^top.a[*127] ##1 top.a[*127])[*0] or top.b')),
    (None, 'sequence s; top.a[*127] ##1 top.a[*127] endsequence ' + FIRST),
    ('Y9 TooWide', 'sequence s; top.a[*127] ##1 top.a[*127] endsequence ' + on_clock('t', '^s')),
    ('Y9 TooWide', on_clock('t', '^##127 top.a[*2]')),
    ('Y9 TooWide', on_clock('t', '^top.a[*7] and top.b[*15]')),
    (None, on_clock('t', 'top.a[*10] and top.b[*10]')),
    ('Y9 TooWide', on_clock('t', '(^top.a throughout top.b[*100]) ##1 top.a[*28]')),
    (None, on_clock('t', '(top.a throughout top.b[*100]) or top.a[*27]')),
    ('Y5 Degenerate', on_clock('t', '^top.a[*0] ##0 top.b |-> top.b')),
    (None, on_clock('t', 'top.a[*0] |=> top.b')),
    (None, on_clock('t', 'top.a[*0:1] |-> top.b')),
    ('Y5 Degenerate', on_clock('t', 'top.a |-> ^top.b[*0]')),
    ('Y5 Degenerate', on_clock('t', '^top.b[*0]')),
    (None, on_clock('t', '(top.a[*1:2] and top.b[*0]) |-> top.b')),
    ('Y5 Degenerate', on_clock('t', '(^top.a[*0] and top.b[*0]) |-> top.b')),
    ('Y5 Degenerate', on_clock('t', '(^top.a throughout top.b[*0]) |-> top.b')),
    (None, 'sequence s; top.a[*0] endsequence ' + FIRST),
    ('Y5 Degenerate', 'sequence s; top.a[*0] endsequence ' + on_clock('t', '^s |-> top.b')),
    ('Y6 AdmitsEmpty', on_clock('t', 'top.a |-> (^top.b[*0:1])')),
    ('Y6 AdmitsEmpty', on_clock('t', '^top.b[*0:1]')),
    ('Y6 AdmitsEmpty', on_clock('t', 'top.a |-> ^top.b or top.a[*0]')),
    (None, on_clock('t', 'top.a |-> top.b[*0:1] ##1 top.a')),
    ('Y6 AdmitsEmpty', on_clock('t', 'top.a |-> ^top.b throughout top.a[*0:1]')),
    ('Y5 Degenerate', on_clock('t', '(^top.a ##1 top.b) intersect top.b |-> top.a')),
    ('Y5 Degenerate', on_clock('t', 'top.a |-> (^top.a ##1 top.b) intersect top.b')),
    (None, on_clock('t', 'top.a |-> ((top.a ##1 top.b) intersect (top.b ##2 top.a)) or top.b')),
    ('Y5 Degenerate', on_clock('t', 'top.a |-> ^top.a[*3] intersect (top.b ##[1:4] top.a) intersect top.b[*2]')),
    (None, on_clock('t', 'top.a |-> top.a[*1:3] intersect (top.b ##[1:4] top.a)')),
    ('Y5 Degenerate', on_clock('t', 'top.a |-> ^top.a[*0:1] intersect top.b[*0]')),
    ('Y6 AdmitsEmpty', on_clock('t', 'top.a |-> ^top.a[*0:1] intersect top.b[*0:2]')),
    (None, on_clock('t', 'top.a |-> top.a[*0:1] intersect top.b')),
    (None, on_clock('t', 'top.a[*0:1] intersect top.b[*0:2] |-> top.b')),
    ('Y9 TooWide', on_clock('t', '^top.a[*1:64] intersect top.b[*1:2]')),
    (None, on_clock('t', 'top.a[*1:127] intersect top.b')),
    ('Y9 TooWide', on_clock('t', '(^top.a[*64] intersect top.b[*2]) |-> top.b')),
    (None, on_clock('t', '(top.a[*127] ##1 top.a[*127]) intersect top.b[*0] or top.b |-> top.a')),
    ('Y8 CyclicSequence', 'sequence ^s; top.a intersect s endsequence ' + FIRST),
    ('Y5 Degenerate', on_clock('t', '^first_match(top.a[*0:1]) |-> top.b')),
    (None, on_clock('t', 'first_match(top.a[*0:1]) |=> top.b')),
    ('Y5 Degenerate', on_clock('t', '(^first_match((top.a[*0])) |-> top.b)')),
    (None, on_clock('t', 'first_match(top.a[*0]) |=> top.b')),
    ('Y5 Degenerate', on_clock('t', '^first_match(top.a[*0] ##0 top.b) |=> top.b')),
    ('Y5 Degenerate', on_clock('t', '^first_match(top.a[*3] or top.b[*0]) |-> top.b')),
    (None, on_clock('t', 'first_match(top.a[*3] or top.b) |-> top.b')),
    ('Y5 Degenerate', 'sequence s; top.a[*0:2] endsequence ' + on_clock('t', '^first_match(s) |-> top.b')),
    (None, on_clock('t', 'first_match(top.a[*127]) |-> top.b')),
    ('Y9 TooWide', on_clock('t', '^first_match(top.a[*64] ##1 top.a[*64]) |-> top.b')),
    (None, on_clock('t', 'first_match(top.a[*125]) |=> top.b')),
    ('Y9 TooWide', on_clock('t', '((^first_match((top.a[*126])) |=> top.b))')),
    ('Y6 AdmitsEmpty', on_clock('t', 'first_match(top.a ##[1:3] top.b) |-> ^top.a[*0:1]')),
    ('Y1 UnknownName', on_clock('t', 'first_match(top.a ##1 ^top.x) |-> top.a[*0:1]')),
    ('Y8 CyclicSequence', 'sequence ^s; top.a ##1 s endsequence ' + on_clock('t', 'first_match(s) |-> top.b')),
    ('Y5 Degenerate', 'sequence s; top.a ##1 top.b endsequence sequence u; s intersect top.a endsequence '
     + on_clock('t', '^u')),
    (None, 'sequence s; top.a ##1 top.b endsequence sequence u; s intersect top.a endsequence ' + FIRST),
    (None, 'counter c [4] add(c < d, 1); counter d [8] load(c == 3, d + 1); ' + FIRST),
    ('Y1 UnknownName', on_clock('t', 'top.a ##1 ^d')),
    (None, on_clock('t', 'top.d == top.w && top.a')),
    (None, on_clock('t', 'top.d == top . w')),
    ('Y1 UnknownName', on_clock('t', 'top.d == ^top.c')),
    ('Y1 UnknownName', on_clock('t', '$past(^e + f)')),
    ('Y1 UnknownName', 'sequence s; top.a endsequence ' + on_clock('t', '^s && top.a')),
    ('Y1 UnknownName', FIRST + ' sequence s; ^b endsequence'),
    ('Y1 UnknownName', on_clock('t', '^t')),
    ('Y1 UnknownName', 'counter n [2] load(top.a, {top.v, top.v}) sub(^b, 1); ' + FIRST),
    ('Y4 SliceRange', 'counter g [4] add(top.a, 1); ' + on_clock('t', '^g[4]')),
    ('Y4 SliceRange', on_clock('t', 'top.a && ^top.d[8:8]')),
    (None, on_clock('t', "top.d[4'd3]")),
    ('Y4 SliceRange', on_clock('t', '^top.d[2:3] == 0')),
    (None, on_clock('t', 'top.v[127]')),
    ('Y4 SliceRange', on_clock('t', '^top.v[128:1] == 0')),
    ('Y3 WiderThan128', on_clock('t', 'top.a && ^{top.v, top.a} == 0')),
    ('Y3 WiderThan128', on_clock('t', '^{top.a, {top.a, top.v}} == 0')),
    ('Y4 SliceRange', on_clock('t', "{top.a, ^top.d[9:2], 119'd0} == 0")),
    ('Y3 WiderThan128', on_clock('t', "^{top.a, top.d[9:2], 120'd0} == 0")),
    ('Y4 SliceRange', on_clock('t', "{^top.d[2:9], 127'd0} == 0")),
    ('Y3 WiderThan128', on_clock('t', "^{top.d[2:9], 128'd0} == 0")),
    # which of two equal names counts, faults of three kinds, and of these the next
    ('Y1 UnknownName', 'sequence n; top.a endsequence counter n [8]; ' + on_clock('t', '^n[1]')),
    ('Y2 Duplicate', 'counter n [8]; sequence ^n; top.a endsequence ' + on_clock('t', 'n[1]')),
    ('Y2 Duplicate', 'counter n [2]; counter ^n [8]; ' + on_clock('t', 'n[2]')),
    ('Y1 UnknownName', 'counter n [2] load(top.a, {top.v, top.v}) sub(^b, 1); ' + DISABLED.replace('^', '')),
    ('Y3 WiderThan128', 'counter n [2] load(top.a, ^{top.v, top.v}) sub(top.b, 1); ' + DISABLED.replace('^', '')),
    ('Y4 SliceRange', 'counter n [2] load(top.a, top.v) sub(top.b, 1); ' + DISABLED),
    # where a sequence may be named, and what is named before it is declared
    (None, 'sequence q; top.a endsequence ' + on_clock('t', '(q)')),
    ('Y1 UnknownName', 'sequence q; top.a endsequence ' + on_clock('t', '^q[0]')),
    (None, 'counter c [4] add(c < d, 1); counter d [8] load(c == 3, d + 1); ' + on_clock('t', 's |-> c < d')
     + ' sequence s; c == 2 ##1 top.a endsequence'),
    (None, on_clock('t', f"{{{ALL_ONES}}}")),
    ('Y3 WiderThan128', on_clock('t', f"^{{{ALL_ONES}, 1'd0}}")),
]

# expressions with their own widths, by the standard's table of widths (IEEE 1800-2017, table 11-21)
WIDTHS = [
    ('5', 32), ("8'hFF", 8), ('top.d', 8), ('top.d[3:1]', 3), ('top.d[2]', 1), ('~top.d', 8), ('!top.d', 1),
    ('~&top.d', 1),
    ('$past(top.d, 2)', 8), ('$rose(top.d)', 1), ('$onehot0(top.d)', 1), ('top.a ? top.a : top.d', 8),
    ('top.d ? top.a : top.a', 1),
    ('{top.d, top.a}', 9), ('{top.d}', 8), ("top.d + 9'd1 << 10'd1 + 11'd1", 9),
    *[(f"top.d {sign} 9'd1", 9) for sign in ('+', '-', '&', '|', '^', '~^', '^~')],
    *[(f"top.d {sign} 9'd1", 8) for sign in ('<<', '>>')],
    *[(f"top.d {sign} 9'd1", 1) for sign in ('<', '<=', '>', '>=', '==', '!=', '&&', '||')],
    # numbers (5.7.1)
    ("9'h1FF", 9), ("4'b1_0_1", 4), ("3'd9", 3), ("'o17", 32), ('4294967295', 32),
]


def in_full(text, width):
    """As many bits beside an expression as fill 128, and one more."""
    yield None, on_clock('t', f"{{{text}, {128 - width}'d0}}")
    yield 'Y3 WiderThan128', on_clock('t', f"^{{{text}, {129 - width}'d0}}")


def case(kind, marked):
    at = marked.find('^')
    if kind is None:
        return marked, 'assertions %d' % (marked.count(' property ('))
    return marked.replace('^', '', 1), f'{kind} {at}'


def main():
    cases = [case(kind, text) for kind, text in BORDERS]
    cases += [case(kind, text) for expression in WIDTHS for kind, text in in_full(*expression)]
    for kind, piece in PIECES:
        cases.append(case(kind, FIRST + ' ' + piece))
    for (one, piece), (other, behind) in itertools.permutations(PIECES, 2):
        first = min(one, other, key=ORDER.index)
        keep = lambda kind, text: text if kind == first else text.replace('^', '')
        cases.append(case(first, ' '.join([FIRST, keep(one, piece), keep(other, behind)])))
    (DATA / 'data').mkdir(parents=True, exist_ok=True)
    (DATA / 'data' / 'names.txt').write_text(''.join(f'{path} {width}\n' for path, width in NAMES))
    (DATA / 'data' / 'suites.txt').write_text(''.join(text + '\n' for text, _ in cases))
    # verdicts were worked out by hand
    old = read_part(DATA / 'stdout', 'types').splitlines(keepends=True)
    verdicts = [line for line in old if line.startswith(('holds', 'vacuous', 'fails', 'disabled', 'open'))]
    write_part(DATA / 'stdout', 'types', ''.join([answer + '\n' for _, answer in cases] + verdicts))


if __name__ == '__main__':
    main()
