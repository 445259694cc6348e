#!/usr/bin/env python3
"""Compares what svamon imports of each form with a model: scripts/random/import_rows.py SVAMON [DUMPS [SEED]]

Each line of ROWS is a form as a team writes it, and the tree that it is, which property_model.py knows. All forms are
imported as one file, and checked over random dumps.
"""
import pathlib
import re
import sys

import random_import as drawn

a, b, c, d = (('signal', name) for name in 'abcd')
one, zero = ('constant', 1), ('constant', 0)
A, B, C, D, ONE, ZERO = (('boolean', it) for it in (a, b, c, d, one, zero))
S = lambda sequence: ('sequence', sequence)
no = lambda boolean: ('no', boolean)
both = lambda first, second: ('both', first, second)
either = lambda first, second: ('any', first, second)
delay = lambda first, least, most, second: ('delay', first, least, most, second)
lead = lambda least, most, body: ('lead', least, most, body)
repeat = lambda body, least, most: ('repeat', body, least, most)
then = lambda first, second: ('implication', first, second)
after = lambda first, second: ('next_implication', first, second)
never = lambda body: ('not', body)
BC = delay(B, 1, 3, C)

ROWS = [
    # sequences alone, and implications
    ('a', S(A)),
    ('a ##1 b', S(delay(A, 1, 1, B))),
    ('a |-> b', then(A, S(B))),
    ('a |=> b', after(A, S(B))),
    ('a ##1 b |-> ##[0:2] c', then(delay(A, 1, 1, B), S(lead(0, 2, C)))),
    ('a[*2] ##1 b |=> c[*1:3] ##1 d', after(delay(repeat(A, 2, 2), 1, 1, B), S(delay(repeat(C, 1, 3), 1, 1, D)))),
    ('a[*0:2] |-> b', then(repeat(A, 0, 2), S(B))),
    ('a[*0:2] |=> b', after(repeat(A, 0, 2), S(B))),
    ('a throughout ##2 b', S(('throughout', a, lead(2, 2, B)))),
    ('(a ##1 b) and (c ##2 d)', S(('and', delay(A, 1, 1, B), delay(C, 2, 2, D)))),
    ('(a ##1 b) or (c ##2 d)', S(('or', delay(A, 1, 1, B), delay(C, 2, 2, D)))),
    ('(a ##[1:3] b) intersect (c[*1:4])', S(('intersect', delay(A, 1, 3, B), repeat(C, 1, 4)))),
    ('a within (b ##2 c)', S(('within', A, delay(B, 2, 2, C)))),
    ('(a ##1 b) within c[*1:4]', S(('within', delay(A, 1, 1, B), repeat(C, 1, 4)))),
    ('strong(a ##1 b)', S(delay(A, 1, 1, B))),
    ('weak(a ##1 b)', S(delay(A, 1, 1, B))),
    ('a |-> strong(##1 b)', then(A, S(lead(1, 1, B)))),
    ('first_match(a ##[1:2] b) |-> c', then(('first', delay(A, 1, 2, B)), S(C))),
    ('first_match(##[1:3] b) |-> c', then(('first', lead(1, 3, B)), S(C))),
    ('first_match(b[*1:3]) |-> c', then(('first', repeat(B, 1, 3)), S(C))),
    ('a |-> first_match(##[1:3] b)', then(A, S(lead(1, 3, B)))),
    # negation
    ('not a', never(S(A))),
    ('not (b ##[1:3] c)', never(S(BC))),
    ('not (a ##[0:2] b)', never(S(delay(A, 0, 2, B)))),
    ('a |-> not (b ##1 c)', then(A, never(S(delay(B, 1, 1, C))))),
    ('a |-> not (b[*2:3])', then(A, never(S(repeat(B, 2, 3))))),
    ('not (a[*0:2] ##1 b)', never(S(delay(repeat(A, 0, 2), 1, 1, B)))),
    ('not ((a ##1 b) or (c ##2 d))', never(S(('or', delay(A, 1, 1, B), delay(C, 2, 2, D))))),
    ('not ((a ##1 b) and (c ##2 d))', never(S(('and', delay(A, 1, 1, B), delay(C, 2, 2, D))))),
    ('not (a throughout (b ##1 c))', never(S(('throughout', a, delay(B, 1, 1, C))))),
    ('not not (a ##1 b)', never(never(S(delay(A, 1, 1, B))))),
    ('not (a |-> b)', never(then(A, S(B)))),
    ('not (a |=> b)', never(after(A, S(B)))),
    ('not (a ##1 b |-> ##1 c)', never(then(delay(A, 1, 1, B), S(lead(1, 1, C))))),
    ('not (a #-# b)', never(('followed', A, S(B)))),
    ('not (a #=# b)', never(('next_followed', A, S(B)))),
    ('not nexttime a', never(('next', 1, S(A)))),
    ('not (always [1:3] a)', never(('always', 1, 3, S(A)))),
    ('not (s_eventually [1:3] a)', never(('eventually', 1, 3, S(A)))),
    ('not (if (a) b else c)', never(('if_else', a, S(B), S(C)))),
    ('not (a implies b)', never(('implies', S(A), S(B)))),
    ('not (a iff b)', never(('iff', S(A), S(B)))),
    ('not (a until b)', never(('until', S(A), S(B)))),
    ('not (a until_with b)', never(('until_with', S(A), S(B)))),
    # implications in one another
    ('a |-> b |-> c', then(A, then(B, S(C)))),
    ('a |-> (b |=> c)', then(A, after(B, S(C)))),
    ('a |=> (b |-> c)', after(A, then(B, S(C)))),
    ('a |=> (b |=> c)', after(A, after(B, S(C)))),
    ('a |=> (b[*0:1] |-> c)', after(A, then(repeat(B, 0, 1), S(C)))),
    ('a |-> (b[*0:1] |=> c)', then(A, after(repeat(B, 0, 1), S(C)))),
    # and, or, implies, iff, if, case
    ('(a |-> ##1 b) and (a |-> ##1 c)', ('and', then(A, S(lead(1, 1, B))), then(A, S(lead(1, 1, C))))),
    ('(a |-> ##1 b) and (c |=> d)', ('and', then(A, S(lead(1, 1, B))), after(C, S(D)))),
    ('(a |-> ##1 b) or (c |-> ##2 d)', ('or', then(A, S(lead(1, 1, B))), then(C, S(lead(2, 2, D))))),
    ('(a ##1 b |-> c) and (c ##1 d |-> a)', ('and', then(delay(A, 1, 1, B), S(C)), then(delay(C, 1, 1, D), S(A)))),
    ('(not a) and (##1 b)', ('and', never(S(A)), S(lead(1, 1, B)))),
    ('if (a) ##1 b', ('if', a, S(lead(1, 1, B)))),
    ('if (a) ##1 b else ##2 c', ('if_else', a, S(lead(1, 1, B)), S(lead(2, 2, C)))),
    ('if (a) (b |=> c) else d', ('if_else', a, after(B, S(C)), S(D))),
    ('a |-> if (b) c else ##1 d', then(A, ('if_else', b, S(C), S(lead(1, 1, D))))),
    ("case (a) 1'b1: b; default: ##1 c; endcase", ('if_else', a, S(B), S(lead(1, 1, C)))),
    ("case (a) 1'b1: ##1 b; endcase", ('if', a, S(lead(1, 1, B)))),
    ("case ({a, b}) 2'd1, 2'd2: c; 2'd3: d; endcase",
     ('if_else', either(both(no(a), b), both(a, no(b))), S(C), ('if', both(a, b), S(D)))),
    ('a implies ##1 b', ('implies', S(A), S(lead(1, 1, B)))),
    ('(a ##1 b) implies (##2 c)', ('implies', S(delay(A, 1, 1, B)), S(lead(2, 2, C)))),
    ('a iff b', ('iff', S(A), S(B))),
    ('a iff (##1 b)', ('iff', S(A), S(lead(1, 1, B)))),
    # nexttime, always, eventually
    ('nexttime a', ('next', 1, S(A))),
    ('s_nexttime [3] a', ('next', 3, S(A))),
    ('nexttime [2] (a |-> b)', ('next', 2, then(A, S(B)))),
    ('nexttime (a[*0:1] |-> b)', ('next', 1, then(repeat(A, 0, 1), S(B)))),
    ('a |-> nexttime (b |=> c)', then(A, ('next', 1, after(B, S(C))))),
    ('always [1:3] a', ('always', 1, 3, S(A))),
    ('s_always [0:2] (a ##1 b)', ('always', 0, 2, S(delay(A, 1, 1, B)))),
    ('always [1:2] (a |=> b)', ('always', 1, 2, after(A, S(B)))),
    ('always [1:2] (a[*0:1] |-> b)', ('always', 1, 2, then(repeat(A, 0, 1), S(B)))),
    ('a |-> always [1:2] b', then(A, ('always', 1, 2, S(B)))),
    ('s_eventually [1:3] a', ('eventually', 1, 3, S(A))),
    ('eventually [0:2] (a |-> b)', ('eventually', 0, 2, then(A, S(B)))),
    ('a |-> s_eventually b', then(A, ('eventually', 0, None, S(B)))),
    ('s_eventually (a ##1 b)', ('eventually', 0, None, S(delay(A, 1, 1, B)))),
    # until
    ('a until b', ('until', S(A), S(B))),
    ('a s_until b', ('until', S(A), S(B))),
    ('a until_with b', ('until_with', S(A), S(B))),
    ('c |-> a s_until_with b', then(C, ('until_with', S(A), S(B)))),
    ('c |=> a until b', after(C, ('until', S(A), S(B)))),
    # followed by
    ('a #-# ##1 b', ('followed', A, S(lead(1, 1, B)))),
    ('a ##1 b #=# c', ('next_followed', delay(A, 1, 1, B), S(C))),
    ('a[*0:2] #=# c', ('next_followed', repeat(A, 0, 2), S(C))),
    ('a #-# (b |-> ##1 c)', ('followed', A, then(B, S(lead(1, 1, C))))),
    ('a |-> (b #-# not c)', then(A, ('followed', B, never(S(C))))),
    # open ends
    ('a |-> ##[1:$] b', then(A, S(lead(1, None, B)))),
    ('a ##[*] b |-> c', then(delay(A, 0, None, B), S(C))),
    ('a |-> b ##[+] c', then(A, S(delay(B, 1, None, C)))),
    ('a[*1:$] ##1 b |-> c', then(delay(repeat(A, 1, None), 1, 1, B), S(C))),
    ('a |-> b[*] ##1 c', then(A, S(delay(repeat(B, 0, None), 1, 1, C)))),
    ('a |-> b[+] ##1 c', then(A, S(delay(repeat(B, 1, None), 1, 1, C)))),
    ('a |-> b[->1]', then(A, S(('goto', b, 1, 1)))),
    ('b[->2] |-> c', then(('goto', b, 2, 2), S(C))),
    ('a |-> b[->1:2] ##1 c', then(A, S(delay(('goto', b, 1, 2), 1, 1, C)))),
    ('b[=1] ##1 c |-> a', then(delay(('nonconsecutive', b, 1, 1), 1, 1, C), S(A))),
    ('a |-> b[=2] ##1 c', then(A, S(delay(('nonconsecutive', b, 2, 2), 1, 1, C)))),
    ('a |-> (!b throughout c[->1])', then(A, S(('throughout', no(b), ('goto', c, 1, 1))))),
    ('not (a ##[1:$] b)', never(S(delay(A, 1, None, B)))),
    # booleans
    ('$past(a) |-> b', then(('boolean', ('past', 1, a)), S(B))),
    ('$rose(a) |-> b', then(('boolean', both(a, no(('past', 1, a)))), S(B))),
    ('$fell(a) |-> b', then(('boolean', both(no(a), ('past', 1, a))), S(B))),
    ('a -> b', S(('boolean', either(no(a), b)))),
    ('a <-> b', S(('boolean', either(both(a, b), both(no(a), no(b)))))),
    ('a === b |-> c', then(('boolean', either(both(a, b), both(no(a), no(b)))), S(C))),
    ("{a, b} inside {2'd1, [2'd2:2'd3]} |-> c", then(('boolean', either(a, b)), S(C))),
    ("{a, b} ==? 2'b1? |-> c", then(A, S(C))),
    ('$onehot({a, b}) |-> c', then(('boolean', either(both(a, no(b)), both(no(a), b))), S(C))),
    ("$countones({a, b, c}) == 2 |-> d",
     then(('boolean', either(either(both(both(a, b), no(c)), both(both(a, c), no(b))),
                             both(both(b, c), no(a)))), S(D))),
    ('a |-> {3{b}} == 3\'d7', then(A, S(B))),
    ('$sampled(a) |-> b', then(A, S(B))),
    # properties in one another
    ('(a |-> b) and (not c or d)', ('and', then(A, S(B)), ('or', never(S(C)), S(D)))),
    ('if (a) b else c |=> d', ('if_else', a, S(B), after(C, S(D)))),
    ('(a |-> b) implies c', ('implies', then(A, S(B)), S(C))),
    ('(a |-> b) iff c', ('iff', then(A, S(B)), S(C))),
    ('a ##1 b intersect c ##1 d #-# not (a ##1 b)',
     ('followed', ('intersect', delay(A, 1, 1, B), delay(C, 1, 1, D)), never(S(delay(A, 1, 1, B))))),
    ('a #=# (b |-> c)', ('next_followed', A, then(B, S(C)))),
    ('nexttime nexttime[3] (a |-> b)', ('next', 1, ('next', 3, then(A, S(B))))),
    ('always [1:4] (a |-> s_eventually [0:2] b)', ('always', 1, 4, then(A, ('eventually', 0, 2, S(B))))),
    ('a |-> b s_until_with (c |-> d)', then(A, ('until_with', S(B), then(C, S(D))))),
    ('not ##[1:2] a', never(S(lead(1, 2, A)))),
    ('a #-# b implies c until_with d', ('followed', A, ('implies', S(B), ('until_with', S(C), S(D))))),
    # local variables and triggered
    ]

LOCALS = [
    ('property l0; logic x; (a, x = b) |-> ##1 c == x; endproperty', 'l0',
     then(A, S(lead(1, 1, ('boolean', either(both(c, ('past', 1, b)), both(no(c), no(('past', 1, b))))))))),
    ('sequence t0; a ##1 b; endsequence', 'c |-> t0.triggered',
     then(C, S(('boolean', both(('past', 1, a), b))))),
]


def main():
    if len(sys.argv) not in (2, 3, 4):
        sys.exit(__doc__.splitlines()[0])
    program, dumps, seed = sys.argv[1], *(int(word) for word in (sys.argv[2:] + ['20', '1'][len(sys.argv) - 2:]))
    drawn.draw.seed(seed)
    rows = ROWS + [(form, tree) for _, form, tree in LOCALS]
    lines = [f'r{place}: assert property ({form});' for place, (form, _) in enumerate(rows)]
    text = 'default clocking @(posedge clk); endclocking\n' + ''.join(line + '\n' for line, _, _ in LOCALS)
    file, written, dump = (pathlib.Path('import_rows.' + end) for end in ('sv', 'sva', 'vcd'))
    file.write_text(text + '\n'.join(lines) + '\n')
    dump.write_text(drawn.dump_of(drawn.random_rows()))
    words = ('import', str(file), '--scope', 'tb', '--vcd', str(dump), '--bound', str(drawn.BOUND))
    out, messages, _ = drawn.ran(program, *words)
    refused = dict(re.findall(r'(?m)^\S+: refused r(\d+) (.*)$', messages))
    for place, why in refused.items():
        print('refused:', rows[int(place)][0], '--', why)
    written.write_text(out)
    differ = set()
    for _ in range(dumps):
        clocks = drawn.random_rows()
        dump.write_text(drawn.dump_of(clocks))
        report, fault, status = drawn.ran(program, 'check', '--vcd', str(dump), '--sva', str(written))
        if status > 1:
            print('check refuses:', fault)
            return 1
        found = drawn.found_in(report)
        for place, (form, tree) in enumerate(rows):
            name = f'r{place}'
            if str(place) not in refused and found[name] != (wanted := drawn.wanted_of(clocks, tree, None)):
                if name not in differ:
                    print(f'{form}: {found[name]}, not {wanted}\n{dump.read_text()}')
                    print([line for line in out.splitlines() if line.startswith(name + ':')])
                differ.add(name)
    print(f'{len(rows)} forms over {dumps} dumps: {len(refused)} refused, {len(differ)} differ')
    return 1 if differ or refused else 0


if __name__ == '__main__':
    sys.exit(main())
