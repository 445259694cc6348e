#!/usr/bin/env python3
"""Compares svamon with a model of properties: scripts/random/random_import.py SVAMON [FILES [SEED [PROCESSES]]]

It draws files of assertions in SystemVerilog, of all temporal forms, with declarations, arguments, defaults, parameters
and macros, and dumps of four signals of one bit and three of more. Each file is imported, and what is written is
checked over the dump. Of each assertion that is written the failed attempts with their clocks, and how many are
disabled, open, and neither of these, must be those of property_model.py, which knows the trees that the texts were made
of. Some booleans are expressions of several bits; their values are those of expression_model.py.

Each file has a seed of its own: SEED, SEED + 1, .., so that processes may share them, and a file that differs can be
drawn again alone. Each process works in a folder of its own.
"""
import collections
import multiprocessing
import os
import pathlib
import random
import re
import subprocess
import sys
import tempfile

sys.path.insert(0, str(pathlib.Path(__file__).resolve().parents[1] / 'models'))
from expression_model import Values, is_unsigned  # noqa: E402
from property_model import Model  # noqa: E402

draw = random.Random()
CLOCKS, BOUND, SECONDS = 12, 30, 60
SIGNALS = 'abcd'
WIDTHS = {'a': 1, 'b': 1, 'c': 1, 'd': 1, 'u': 4, 'v': 8, 'w': 13}


def number():
    """A literal, sized or not."""
    width = draw.choice([1, 2, 4, 8])
    value = draw.randrange(1 << width)
    return ('sized', width, value) if draw.randrange(3) else ('number', value)


def operand(depth):
    """An expression of any width (IEEE 1800-2017, 11.4)."""
    name = ('name', draw.choice('aubvvw'))
    if depth == 0 or draw.randrange(5) == 0:
        return name if draw.randrange(4) else number()
    part = lambda: operand(depth - 1)
    kind = draw.choice(['infix', 'infix', 'infix', 'flip', 'minus', 'shift', 'choice', 'concat', 'copies', 'bits',
                        'part', 'index', 'past', 'reduce', 'truth', 'fill'])
    size = WIDTHS[name[1]]
    if kind == 'infix':
        return ('infix', draw.choice(['+', '-', '&', '|', '^', '~^']), part(), part())
    if kind in ('flip', 'minus'):
        return (kind, part())
    if kind == 'shift':
        return ('shift', draw.choice(['<<', '>>', '<<<', '>>>']), unsigned(depth - 1), small())
    if kind == 'choice':
        return ('choice', truth(depth - 1), part(), part())
    if kind == 'concat':
        return ('concat', tuple(closed(depth - 1) for _ in range(draw.randint(1, 3))))
    if kind == 'copies':
        return ('copies', draw.randint(1, 3), closed(depth - 1))
    if kind in ('bits', 'part') and size > 1:
        low = draw.randrange(size)
        high = draw.randrange(low, size)
        return ('bits', name[1], high, low) if kind == 'bits' else ('part', name[1], low, high - low + 1)
    if kind == 'index' and size > 1:
        return ('index', name[1], small())
    if kind == 'past':
        return ('past', draw.randint(1, 3), closed(depth - 1))
    if kind == 'reduce':
        return ('reduce', draw.choice(['&', '|', '^', '~&', '~|', '~^']), closed(depth - 1))
    return truth(depth - 1) if kind == 'truth' else name


def unsigned(depth):
    made = operand(depth)
    return made if is_unsigned(made) else ('name', 'v')


def closed(depth):
    """One that has a width of its own: no literal without a size may stand in a concatenation (11.4.12)."""
    return ('concat', (('name', 'u'),)) if depth == 0 else ('bits', 'v', 6, 1) if draw.randrange(3) == 0 else \
        ('name', draw.choice('abuvw'))


def small():
    return ('name', 'u') if draw.randrange(2) else ('number', draw.randrange(6))


def truth(depth):
    """An expression of one bit."""
    part = lambda: operand(max(depth - 1, 0))
    kind = draw.choice(['compare', 'compare', 'compare', 'inside', 'wild', 'both', 'any', 'lacks', 'onehot', 'count',
                        'rose', 'fell', 'stable'])
    if kind == 'compare':
        first, second = part(), draw.choice([part(), part(), ('fill', draw.randrange(2))])
        first = first if is_unsigned(first) or is_unsigned(second) and second[0] != 'fill' else ('name', 'w')
        return ('compare', draw.choice(['==', '!=', '<', '<=', '>', '>=', '===', '!==']), first, second)
    if kind == 'inside':
        items = [number() if draw.randrange(2) else ('range', *(sorted_numbers())) for _ in range(draw.randint(1, 3))]
        return ('inside', unsigned(max(depth - 1, 0)), tuple(items))
    if kind == 'wild':
        return ('wild', unsigned(max(depth - 1, 0)), ''.join(draw.choice('01?') for _ in range(draw.randint(1, 8))))
    if kind in ('both', 'any'):
        return (kind, part(), part())
    if kind == 'lacks':
        return (kind, part())
    if kind == 'onehot':
        return (kind, draw.randrange(2), ('name', draw.choice('uvw')))
    if kind == 'count':
        return ('compare', draw.choice(['==', '<', '>=']), ('count', ('name', draw.choice('uvw'))),
                ('number', draw.randrange(6)))
    return (kind, draw.choice('abuvw'))


def sorted_numbers():
    return [('number', value) for value in sorted(draw.randrange(40) for _ in range(2))]


def text_of(tree):
    """The text of an expression, each part in brackets."""
    kind = tree[0]
    plain = ('name', 'sized', 'number', 'cast', 'held')
    boxed = lambda part: text_of(part) if part[0] in plain else f'({text_of(part)})'
    if kind == 'name':
        return tree[1]
    if kind in ('cast', 'held'):
        return 'x'
    if kind == 'number':
        return str(tree[1])
    if kind == 'sized':
        base, digits = draw.choice([('d', str(tree[2])), ('h', f'{tree[2]:x}'), ('b', f'{tree[2]:b}')])
        return f"{tree[1]}'{base}{digits}"
    if kind == 'fill':
        return f"'{tree[1]}"
    if kind in ('infix', 'shift', 'compare'):
        return f'{boxed(tree[2])} {tree[1]} {boxed(tree[3])}'
    if kind in ('both', 'any'):
        return f'{boxed(tree[1])} {"&&" if kind == "both" else "||"} {boxed(tree[2])}'
    if kind in ('flip', 'minus', 'lacks'):
        return {'flip': '~', 'minus': '-', 'lacks': '!'}[kind] + boxed(tree[1])
    if kind == 'reduce':
        return tree[1] + boxed(tree[2])
    if kind == 'choice':
        return f'{boxed(tree[1])} ? {boxed(tree[2])} : {boxed(tree[3])}'
    if kind == 'concat':
        return '{' + ', '.join(map(text_of, tree[1])) + '}'
    if kind == 'copies':
        return f'{{{tree[1]}{{{text_of(tree[2])}}}}}'
    if kind == 'bits':
        return f'{tree[1]}[{tree[2]}]' if tree[2] == tree[3] else f'{tree[1]}[{tree[2]}:{tree[3]}]'
    if kind == 'part':
        if draw.randrange(2):
            return f'{tree[1]}[{tree[2]} +: {tree[3]}]'
        return f'{tree[1]}[{tree[2] + tree[3] - 1} -: {tree[3]}]'
    if kind == 'index':
        return f'{tree[1]}[{text_of(tree[2])}]'
    if kind == 'inside':
        return f'{boxed(tree[1])} inside {{{", ".join(map(item_text, tree[2]))}}}'
    if kind == 'wild':
        return f"{boxed(tree[1])} ==? {len(tree[2])}'b{tree[2]}"
    if kind == 'past':
        return f'$past({text_of(tree[2])}, {tree[1]})'
    name = {'count': '$countones', 'rose': '$rose', 'fell': '$fell', 'stable': '$stable'}.get(kind)
    name = name or ('$onehot' if tree[1] else '$onehot0')
    return f'{name}({tree[1] if kind in ("rose", "fell", "stable") else text_of(tree[-1])})'


def item_text(item):
    return f'[{text_of(item[1])}:{text_of(item[2])}]' if item[0] == 'range' else text_of(item)


def with_values(tree, values):
    """A tree whose expressions are functions of the clock."""
    if isinstance(tree, tuple):
        if tree and tree[0] == 'expression':
            return ('test', lambda clock: values.alone(tree[1], clock))
        return tuple(with_values(part, values) for part in tree)
    return tree


def boolean(depth=2):
    if draw.randrange(6) == 0:
        return ('expression', truth(2))
    if depth == 0 or draw.randrange(3):
        return ('signal', draw.choice(SIGNALS))
    kind = draw.choice(['no', 'no', 'both', 'any', 'past', 'constant'])
    if kind == 'constant':
        return ('constant', draw.randrange(2))
    if kind == 'past':
        return ('past', draw.randint(1, 3), boolean(depth - 1))
    return (kind,) + tuple(boolean(depth - 1) for _ in range(1 if kind == 'no' else 2))


def counts(least, most):
    low = draw.randint(least, most)
    return low, draw.randint(low, most)


def sequence(depth, open_ended=True):
    if depth == 0 or draw.randrange(4) == 0:
        return ('boolean', boolean())
    part = lambda: sequence(depth - 1, open_ended)
    kind = draw.choice(['delay', 'delay', 'lead', 'repeat', 'repeat', 'or', 'and', 'throughout', 'intersect',
                        'within', 'goto', 'nonconsecutive'])
    if kind == 'delay':
        low, high = counts(0, 3)
        return ('delay', part(), low, None if open_ended and draw.randrange(12) == 0 else high, part())
    if kind == 'lead':
        return ('lead', *counts(0, 3), part())
    if kind == 'repeat':
        low, high = counts(0, 3)
        return ('repeat', part(), low, None if open_ended and draw.randrange(12) == 0 else max(high, 1))
    if kind in ('goto', 'nonconsecutive'):
        return (kind, boolean(1), *counts(1, 2)) if open_ended else part()
    if kind == 'throughout':
        return ('throughout', boolean(1), part())
    return (kind, part(), part())


def tree(depth):
    if depth == 0 or draw.randrange(5) == 0:
        return ('sequence', sequence(2))
    part = lambda: tree(depth - 1)
    kind = draw.choice(['implication', 'implication', 'next_implication', 'not', 'and', 'or', 'next', 'always',
                        'eventually', 'until', 'until_with', 'if', 'if_else', 'implies', 'iff', 'followed',
                        'next_followed'])
    if kind in ('implication', 'next_implication', 'followed', 'next_followed'):
        first = ('first', sequence(1)) if draw.randrange(12) == 0 else sequence(2)
        return (kind, first, part())
    if kind == 'next':
        return (kind, draw.randint(0, 3), part())
    if kind == 'always':
        return (kind, *counts(0, 3), part())
    if kind == 'eventually':
        return (kind, 0, None, part()) if draw.randrange(4) == 0 else (kind, *counts(0, 3), part())
    if kind in ('until', 'until_with'):
        side = lambda: ('sequence', ('boolean', boolean())) if draw.randrange(6) else part()
        return (kind, side(), side())
    if kind in ('if', 'if_else'):
        return (kind, boolean(), *(part() for _ in range(1 if kind == 'if' else 2)))
    sides = tuple(part() for _ in range(1 if kind == 'not' else 2))
    if kind in ('and', 'or') and all(side[0] == 'sequence' for side in sides):
        # two sequences that are joined so are one, of which a part may be empty (16.9.5, 16.9.7)
        return ('sequence', (kind, sides[0][1], sides[1][1]))
    return (kind,) + sides


class Writer:
    """Texts of trees. Some parts are written as uses of declarations, which it keeps."""

    def __init__(self):
        self.declared, self.names = [], {}

    def boolean(self, one):
        if one in self.names:
            return self.names[one]
        kind = one[0]
        if kind == 'signal':
            return one[1]
        if kind == 'expression':
            return text_of(one[1])
        if kind == 'constant':
            return f"1'b{one[1]}"
        if kind == 'no':
            return draw.choice(['!%s', '~%s']) % self.boxed(one[1])
        if kind == 'past':
            return f'$past({self.boolean(one[2])}{"" if one[1] == 1 else ", " + str(one[1])})'
        mark = draw.choice(['&&', '&']) if kind == 'both' else draw.choice(['||', '|'])
        return f'{self.boxed(one[1])} {mark} {self.boxed(one[2])}'

    def boxed(self, one):
        text = self.boolean(one)
        return text if re.fullmatch(r"[\w']+|\$past\(\w+\)", text) else f'({text})'

    def span(self, least, most):
        return f'{least}' if least == most else f'[{least}:{"$" if most is None else most}]'

    def gap(self, least, most):
        if most is None and least < 2 and draw.randrange(2):
            return '##[*]' if least == 0 else '##[+]'
        return '##' + self.span(least, most)

    def count(self, sign, least, most):
        if sign == '*' and most is None and least < 2 and draw.randrange(2):
            return '[*]' if least == 0 else '[+]'
        return f'[{sign}{self.span(least, most).strip("[]")}]'

    def part(self, one):
        return f'({self.sequence(one)})' if one[0] != 'boolean' else self.boxed(one[1])

    def sequence(self, one):
        kind = one[0]
        if kind == 'boolean':
            return self.boolean(one[1])
        if kind == 'delay':
            return f'{self.part(one[1])} {self.gap(one[2], one[3])} {self.part(one[4])}'
        if kind == 'lead':
            return f'{self.gap(one[1], one[2])} {self.part(one[3])}'
        if kind == 'repeat':
            return self.part(one[1]) + self.count('*', one[2], one[3])
        if kind in ('goto', 'nonconsecutive'):
            return self.boxed(one[1]) + self.count('->' if kind == 'goto' else '=', one[2], one[3])
        if kind == 'throughout':
            return f'{self.boxed(one[1])} throughout {self.part(one[2])}'
        if kind == 'first':
            return f'first_match({self.sequence(one[1])})'
        return f'{self.part(one[1])} {kind} {self.part(one[2])}'

    def declare(self, word, text, formals):
        name = f'{word[0]}{len(self.declared)}'
        heading = f'({", ".join(formals)})' if formals else ''
        self.declared.append(f'{word} {name}{heading}; {text}{draw.choice([";", ";", ""]) } end{word}')
        return name

    def instance(self, word, one, made):
        """A use of a declaration that says a part; sometimes a boolean in it is an argument."""
        if self.names:
            return made(one)
        inner = booleans_of(one)
        if not inner or draw.randrange(2):
            return self.declare(word, made(one), [])
        formal = draw.choice(inner)
        actual = self.boolean(formal)
        self.names = {formal: 'x'}
        inside = made(one)
        self.names = {}
        return self.use(word, inside, actual)

    def use(self, word, inside, actual):
        name = self.declare(word, inside, ['x'])
        return f'{name}(.x({actual}))' if draw.randrange(3) == 0 else f'{name}({actual})'

    def side(self, one):
        if one[0] == 'sequence' and draw.randrange(8) == 0:
            return '(' + self.instance('sequence', one[1], self.sequence) + ')'
        if draw.randrange(10) == 0:
            return '(' + self.instance('property', one, self.property) + ')'
        return f'({self.property(one)})'

    def property(self, one):
        kind = one[0]
        if kind == 'sequence':
            text = self.sequence(one[1])
            return draw.choice([text, text, text, f'strong({text})', f'weak({text})'])
        strength = draw.choice(['', 's_'])
        if kind == 'not':
            return f'not {self.side(one[1])}'
        if kind == 'next':
            return f'{strength}nexttime{"" if one[1] == 1 else f"[{one[1]}]"} {self.side(one[2])}'
        if kind == 'always':
            return f'{strength}always [{one[1]}:{one[2]}] {self.side(one[3])}'
        if kind == 'eventually':
            if one[2] is None:
                return f's_eventually {self.side(one[3])}'
            return f'{strength}eventually [{one[1]}:{one[2]}] {self.side(one[3])}'
        if kind in ('until', 'until_with'):
            return f'{self.side(one[1])} {strength}{kind} {self.side(one[2])}'
        if kind == 'if':
            return f'if ({self.boolean(one[1])}) {self.side(one[2])}'
        if kind == 'if_else':
            return f'if ({self.boolean(one[1])}) {self.side(one[2])} else {self.side(one[3])}'
        signs = {'implication': '|->', 'next_implication': '|=>', 'followed': '#-#', 'next_followed': '#=#'}
        if kind in signs:
            return f'{self.part(one[1])} {signs[kind]} {self.side(one[2])}'
        return f'{self.side(one[1])} {kind} {self.side(one[2])}'


def booleans_of(one):
    """The booleans of a tree, as they stand in it."""
    found = []
    for part in one[1:]:
        if isinstance(part, tuple):
            if part and part[0] != 'expression':
                found += [part] if part[0] in ('signal', 'no', 'both', 'any', 'past') else booleans_of(part)
    return found


def typed_truth(leaf):
    """An expression of one bit that reads an argument or a local variable."""
    other, more = operand(1), operand(0)
    other = other if is_unsigned(other) else ('name', 'w')
    kind = draw.choice(['plain', 'plain', 'sum', 'lacks', 'reduce', 'concat', 'choice'])
    compare = lambda one: ('compare', draw.choice(['==', '!=', '<', '<=', '>', '>=']), one, other)
    if kind == 'lacks':
        return ('lacks', leaf)
    if kind == 'reduce':
        return ('reduce', draw.choice(['|', '^', '~|']), leaf)
    if kind == 'concat':
        return compare(('concat', (('name', 'a'), leaf)))
    if kind == 'choice':
        return compare(('choice', ('name', 'b'), leaf, more))
    return compare(('infix', draw.choice(['+', '-', '&', '^']), leaf, more) if kind == 'sum' else leaf)


def typed(writer):
    """A property with an argument or a local variable of a type (16.8.1, 16.10): its use, and its tree."""
    width, given = draw.choice([1, 2, 4, 7, 8, 9, 13]), operand(2)
    kind = draw.choice(['logic', 'bit', 'reg'])
    own = f'{kind} x' if width == 1 and draw.randrange(2) else f'{kind} [{width - 1}:0] x'
    first = ('boolean', ('signal', draw.choice(SIGNALS)))
    if draw.randrange(2):
        test = ('sequence', ('boolean', ('expression', typed_truth(('cast', width, given)))))
        body = ('implication', first, test)
        writer.names = {'': 'x'}
        text, writer.names = writer.property(body), {}
        name = writer.declare('property', text, [own])
        return f'{name}({text_of(given)})', body
    wait = draw.randint(0, 3)
    test = ('boolean', ('expression', typed_truth(('held', wait, width, given))))
    body = ('implication', first, ('sequence', ('lead', wait, wait, test)))
    text = f'{own}; ({first[1][1]}, x = {text_of(given)}) |-> ##{wait} ({text_of(test[1][1])})'
    return writer.declare('property', text, []), body


def assertion(place, writer):
    body = tree(draw.choice([0, 1, 1, 2, 2, 3]))
    disable = boolean(1) if draw.randrange(5) == 0 else None
    text = writer.property(body)
    if draw.randrange(5) == 0:
        text, body = typed(writer)
    words = f'disable iff ({writer.boolean(disable)}) ' if disable else ''
    clock = draw.choice(['', '@(posedge clk) '])
    label = f'r{place}' if draw.randrange(4) else None
    action = draw.choice(['', '', ' else $error("broken")', ' begin $display("kept"); end'])
    head = f'{label}: ' if label else ''
    line = f'{head}{draw.choice(["assert", "assume"])} property ({clock}{words}{text}){action};'
    return label or f'assert_{place + 1}', body, disable, line


def file_of(count):
    """A file, and its assertions: label, tree, what disables."""
    writer = Writer()
    made = [assertion(place, writer) for place in range(count)]
    default = boolean(1) if draw.randrange(3) == 0 else None
    lines = [line for *_, line in made]
    others = ['default clocking @(posedge clk); endclocking'] + writer.declared
    if default:
        others.append(f'default disable iff ({writer.boolean(default)});')
    for other in others:
        lines.insert(draw.randint(0, len(lines)), other)
    if draw.randrange(2):
        ports = ', '.join(f'input logic [{WIDTHS[name] - 1}:0] {name}' for name in 'uvw')
        lines = [f'module checks(input logic clk, a, b, c, d, {ports});'] + lines + ['endmodule']
    return '\n'.join(lines) + '\n', [(name, body, disable or default) for name, body, disable, _ in made]


def drawn_value(size):
    """A value of so many bits, often a small or a large one."""
    value = draw.choice([draw.randrange(1 << size), draw.randrange(4), (1 << size) - 1])
    return value % (1 << size)


def random_rows():
    rows = []
    for _ in range(CLOCKS):
        stays = rows and draw.randrange(3) == 0
        rows.append({name: rows[-1][name] if stays else drawn_value(size) for name, size in WIDTHS.items()})
    return rows


def dump_of(rows):
    codes = dict(zip(WIDTHS, 'ABCDEFG'))
    spans = {name: '' if size == 1 else f' [{size - 1}:0]' for name, size in WIDTHS.items()}
    text = '$timescale 1ns $end\n$scope module tb $end\n$var wire 1 ! clk $end\n'
    text += ''.join(f'$var wire {WIDTHS[name]} {code} {name}{spans[name]} $end\n' for name, code in codes.items())
    text += '$upscope $end\n$enddefinitions $end\n#0\n0!\n'
    for clock, row in enumerate(rows):
        text += f'#{10 * clock + 2}\n' + ''.join(f'b{row[name]:b} {code}\n' for name, code in codes.items())
        text += f'#{10 * clock + 5}\n1!\n#{10 * clock + 10}\n0!\n'
    return text


def found_in(report):
    """Of each monitor: failed attempts, and how many are disabled, open, and good."""
    found = {}
    for line in report.splitlines():
        words = line.split()
        if words[0] == 'monitor':
            tally = dict(zip(words[2::2], map(int, words[3::2])))
            found[words[1]] = [set(), tally['disabled'], tally['open'], tally['holds'] + tally['vacuous']]
        if words[0] == 'fail':
            found[words[1]][0].add((int(words[3]), int(words[5])))
    return found


def wanted_of(rows, body, disable):
    model, values = Model(rows), Values(rows, WIDTHS)
    body, disable = with_values(body, values), with_values(disable, values)
    verdicts = [model.verdict(body, disable, start) for start in range(len(rows))]
    fails = {(start, clock) for start, (kind, clock) in enumerate(verdicts) if kind == 'fails'}
    return [fails] + [sum(1 for kind, _ in verdicts if kind == one) for one in ('disabled', 'open', 'good')]


def ran(*words):
    done = subprocess.run(words, capture_output=True, text=True, timeout=SECONDS)
    return done.stdout, done.stderr, done.returncode


def compared(program, text, taken, codes):
    """What differs, and how many attempts were compared."""
    rows = random_rows()
    file, dump = pathlib.Path('random_import.sv'), pathlib.Path('random_import.vcd')
    file.write_text(text)
    dump.write_text(dump_of(rows))
    words = ['--scope', 'tb', '--bound', str(BOUND)]
    report, messages, status = ran(program, 'check', '--vcd', str(dump), '--sv', str(file), *words)
    refused = dict(re.findall(r'(?m)^\S+: refused (\S+) (\w+):', messages))
    codes.update(refused.values())
    if status == 2 and len(refused) == len(taken):
        return None, 0
    if status != 2 if refused else status > 1:
        return f'status {status}\n{messages}', 0
    found = found_in(report)
    if sorted(found) != sorted(name for name, *_ in taken if name not in refused):
        return f'written: {sorted(found)}, refused: {refused}\n{messages}', 0
    for name, body, disable in taken:
        if name in found and found[name] != (wanted := wanted_of(rows, body, disable)):
            out = ran(program, 'import', str(file), '--vcd', str(dump), *words)[0]
            return f'{name}: {found[name]}, not {wanted}\n{body}\n{out}{messages}{dump_of(rows)}', 0
    return None, len(found) * len(rows)


def run_of(job):
    """Files of some seeds: what differs first, and how many assertions, refusals and attempts there were."""
    program, seeds = job
    assertions, attempts, codes = 0, 0, collections.Counter()
    with tempfile.TemporaryDirectory(prefix='random-import-') as folder:
        os.chdir(folder)
        for seed in seeds:
            draw.seed(seed)
            text, taken = file_of(draw.randint(1, 8))
            assertions += len(taken)
            wrong, compared_now = compared(program, text, taken, codes)
            attempts += compared_now
            if wrong:
                os.chdir('/')
                return f'the file of seed {seed} differs: {wrong}\n{text}', assertions, codes, attempts
        os.chdir('/')
    return None, assertions, codes, attempts


def numbers(words, defaults):
    """The numbers after the program's path, or their defaults."""
    if not 2 <= len(words) <= len(defaults) + 2:
        sys.exit(__doc__.splitlines()[0])
    given = [int(word) for word in words[2:]]
    return given + defaults[len(given):]


def shared(run, program, files, seed, processes):
    """The answers of processes that share the seeds of files, in small lots."""
    lots = [(program, range(first, min(first + 50, seed + files))) for first in range(seed, seed + files, 50)]
    if processes == 1:
        return [run(lot) for lot in lots]
    with multiprocessing.Pool(processes) as pool:
        return pool.map(run, lots, chunksize=1)


def main():
    files, seed, processes = numbers(sys.argv, [200, 1, 1])
    program = os.path.realpath(sys.argv[1])
    assertions, attempts, codes = 0, 0, collections.Counter()
    for wrong, assertions_now, codes_now, attempts_now in shared(run_of, program, files, seed, processes):
        if wrong:
            print(wrong)
            return 1
        assertions, attempts, codes = assertions + assertions_now, attempts + attempts_now, codes + codes_now
    told = ', '.join(f'{count} {code}' for code, count in codes.most_common())
    print(f'{files} files from seed {seed}, {assertions} assertions ({told} refused), {attempts} attempts:',
          'all the same')
    return 0


if __name__ == '__main__':
    sys.exit(main())
