#!/usr/bin/env python3
"""Random typed expressions and counters with their values, by an independent reading of IEEE 1800-2017, 11.4 to 11.8
and 16.9.3.

It shares nothing with svamon: a tree is a tuple, a value a Python integer, and a counter is run tick by tick. Every
draw is from one seed, so each run writes the same two files:

    scripts/models/reference_values.py EXPRESSIONS VALUES

EXPRESSIONS has a line for each word of a small language in which operators stand after their operands: `trace` begins
a new trace, `row` adds a row of signals, `counter` a counter with its clauses, `count` runs the counters, and `value W`
is an expression in a context of W bits (W = 0: its own width). A line that begins with `#` is the expression as one
writes it. VALUES has, for each `value` line, the own width and the value at each tick.
"""
import random
import sys

draw = random.Random(20171800)
TICKS = 6
MOST = 128

ARITHMETIC = {'+': lambda a, b, w: (a + b) % (1 << w), '-': lambda a, b, w: (a - b) % (1 << w),
              '&': lambda a, b, w: a & b, '|': lambda a, b, w: a | b, '^': lambda a, b, w: a ^ b,
              '~^': lambda a, b, w: (a ^ b) ^ ((1 << w) - 1)}
LEVELS = [['+', '-'], ['&'], ['^', '~^'], ['|']]
COMPARE = {'==': lambda a, b: a == b, '!=': lambda a, b: a != b, '<': lambda a, b: a < b, '<=': lambda a, b: a <= b,
           '>': lambda a, b: a > b, '>=': lambda a, b: a >= b}
REDUCE = {'!': lambda bits: '1' not in bits, '|': lambda bits: '1' in bits, '~|': lambda bits: '1' not in bits,
          '&': lambda bits: '0' not in bits, '~&': lambda bits: '0' in bits, '^': lambda bits: bits.count('1') % 2 == 1,
          '~^': lambda bits: bits.count('1') % 2 == 0, '$onehot': lambda bits: bits.count('1') == 1,
          '$onehot0': lambda bits: bits.count('1') <= 1}


def number(width):
    """A number of so many bits, with a liking for the odd ones."""
    kind = draw.randrange(7)
    if kind == 0:
        return 0
    if kind == 1:
        return (1 << width) - 1
    if kind == 2:
        return 1 << draw.randrange(width)
    if kind == 3:
        return min(draw.randrange(4), (1 << width) - 1)
    return draw.getrandbits(width)


def some_width():
    return draw.choice([1, 1, 2, 3, 4, 7, 8, 8, 9, 16, 31, 32, 33, 63, 64, 65, 127, 128, draw.randint(1, MOST)])


def width(tree):
    """The size of an expression that stands for itself: table 11-21."""
    kind = tree[0]
    if kind in ('constant', 'signal', 'counter'):
        return tree[1]
    if kind == 'select':
        return tree[2] - tree[3] + 1
    if kind == 'braces':
        return sum(width(part) for part in tree[1])
    if kind == 'arithmetic':
        return max(width(part) for part in [tree[1]] + [operand for _, operand in tree[2]])
    if kind in ('invert', 'past', 'shift'):
        return width(tree[1])
    if kind == 'choose':
        return max(width(tree[2]), width(tree[3]))
    return 1


def value(tree, tick, size, trace):
    """The value of an expression whose context gives it so many bits."""
    kind = tree[0]
    own = lambda part, at=tick: value(part, at, width(part), trace)
    if kind == 'constant':
        return tree[2]
    if kind == 'signal':
        return trace['rows'][tick][tree[2]] & ((1 << tree[1]) - 1)
    if kind == 'counter':
        return trace['counts'][tick][tree[2]] & ((1 << tree[1]) - 1)
    if kind == 'select':
        bits = format(own(tree[1]), '0%db' % width(tree[1]))
        return int(bits[len(bits) - 1 - tree[2]:len(bits) - tree[3]], 2)
    if kind == 'braces':
        return int(''.join(format(own(part), '0%db' % width(part)) for part in tree[1]), 2)
    if kind == 'invert':
        return value(tree[1], tick, size, trace) ^ ((1 << size) - 1)
    if kind == 'reduce':
        return int(REDUCE[tree[1]](format(own(tree[2]), '0%db' % width(tree[2]))))
    if kind == 'arithmetic':
        so_far = value(tree[1], tick, size, trace)
        for op, operand in tree[2]:
            so_far = ARITHMETIC[op](so_far, value(operand, tick, size, trace), size)
        return so_far
    if kind == 'shift':
        bits = format(value(tree[1], tick, size, trace), '0%db' % size)
        for op, operand in tree[2]:
            by = min(own(operand), size)
            bits = bits[by:] + '0' * by if op == '<<' else '0' * by + bits[:size - by]
        return int(bits, 2)
    if kind == 'compare':
        left, left_width = tree[1], width(tree[1])
        so_far = None
        for op, operand in tree[2]:
            larger = max(left_width, width(operand))
            a = value(left, tick, larger, trace) if so_far is None else so_far
            so_far, left_width = int(COMPARE[op](a, value(operand, tick, larger, trace))), 1
        return so_far
    if kind == 'logic':
        truths = [own(part) != 0 for part in [tree[1]] + [operand for _, operand in tree[2]]]
        return int(all(truths) if tree[2][0][0] == '&&' else any(truths))
    if kind == 'choose':
        return value(tree[2] if own(tree[1]) else tree[3], tick, size, trace)
    if kind == 'past':
        return own(tree[1], tick - tree[2]) if tick >= tree[2] else 0
    now, before = own(tree[2]), own(tree[2], tick - 1) if tick else 0
    return int({'$rose': now & 1 > before & 1, '$fell': now & 1 < before & 1, '$stable': now == before,
                '$changed': now != before}[tree[1]])


def leaf(names):
    kind = draw.randrange(4)
    if kind == 0 or not names:
        bits = some_width()
        return ('constant', bits, number(bits))
    name = draw.choice(names)
    if kind == 1:
        high = draw.randrange(name[1])
        return ('select', name, high, draw.randint(0, high))
    return name


def expression(names, depth):
    if depth == 0 or draw.randrange(8) == 0:
        return leaf(names)
    part = lambda: expression(names, depth - 1)
    chain = lambda ops, fewest=1: [(draw.choice(ops), part()) for _ in range(draw.choice([fewest, 1, 1, 2, 3]))]
    kind = draw.randrange(12)
    if kind <= 2:
        return ('arithmetic', part(), chain(draw.choice(LEVELS)))
    if kind == 3:
        return ('shift', part(), [(op, draw.choice([('constant', 4, draw.randrange(9)), part()]))
                                  for op, _ in chain(['<<', '>>'])])
    if kind == 4:
        return ('compare', part(), chain(draw.choice([['==', '!='], ['<', '<=', '>', '>=']])))
    if kind == 5:
        return ('logic', part(), chain([draw.choice(['&&', '||'])]))
    if kind == 6:
        parts, room = [], MOST
        for _ in range(draw.randint(1, 4)):
            one = part()
            if width(one) <= room:
                parts.append(one)
                room -= width(one)
        return ('braces', parts) if parts else leaf(names)
    if kind == 7:
        return ('invert', part())
    if kind == 8:
        return ('reduce', draw.choice(list(REDUCE)), part())
    if kind == 9:
        return ('choose', part(), part(), part())
    if kind == 10:
        return ('past', part(), draw.randint(1, TICKS))
    return ('change', draw.choice(['$rose', '$fell', '$stable', '$changed']), part())


def text(tree):
    """The expression as one writes it, with brackets round every part."""
    kind = tree[0]
    if kind == 'constant':
        return "%d'h%x" % (tree[1], tree[2])
    if kind in ('signal', 'counter'):
        return '%s%d' % (kind[0], tree[2])
    if kind == 'select':
        return '%s[%d:%d]' % (text(tree[1]), tree[2], tree[3])
    if kind == 'braces':
        return '{%s}' % ', '.join(text(part) for part in tree[1])
    if kind == 'invert':
        return '~(%s)' % text(tree[1])
    if kind in ('reduce', 'change'):
        return '%s(%s)' % (tree[1], text(tree[2]))
    if kind == 'choose':
        return '(%s) ? (%s) : (%s)' % tuple(text(part) for part in tree[1:])
    if kind == 'past':
        return '$past(%s, %d)' % (text(tree[1]), tree[2])
    return '(%s)' % text(tree[1]) + ''.join(' %s (%s)' % (op, text(part)) for op, part in tree[2])


def words(tree):
    """The expression with each operator after its operands."""
    kind = tree[0]
    if kind == 'constant':
        return ["%d'%d" % (tree[1], tree[2])]
    if kind in ('signal', 'counter'):
        return ['%s:%d:%d' % (kind, tree[2], tree[1])]
    if kind == 'select':
        return ['%s:%d:%d' % (words(tree[1])[0], tree[2], tree[3])]
    if kind == 'braces':
        if len(tree[1]) == 1:
            return words(tree[1][0]) + ['{}']
        return words(tree[1][0]) + [word for part in tree[1][1:] for word in words(part) + [',']]
    if kind == 'invert':
        return words(tree[1]) + ['~']
    if kind == 'reduce':
        return words(tree[2]) + ['of' + {'~|': '!'}.get(tree[1], tree[1])]
    if kind == 'change':
        return words(tree[2]) + [tree[1]]
    if kind == 'choose':
        return words(tree[1]) + words(tree[2]) + words(tree[3]) + ['?']
    if kind == 'past':
        return words(tree[1]) + ['past:%d' % tree[2]]
    return words(tree[1]) + [word for op, part in tree[2] for word in words(part) + [op]]


def run_counters(counters, trace):
    """Each counter's value at each tick: 0 at the first, then by its clauses."""
    trace['counts'] = [[0] * len(counters)]
    for tick in range(TICKS):
        after = []
        for place, (bits, clauses) in enumerate(counters):
            true = lambda name: name in clauses and value(clauses[name][0], tick, width(clauses[name][0]), trace) != 0
            by = lambda name: value(clauses[name][1], tick, max(bits, width(clauses[name][1])),
                                    trace) & ((1 << bits) - 1) if true(name) else 0
            if true('clear'):
                after.append(0)
            elif true('load'):
                after.append(by('load'))
            else:
                after.append(max(0, min((1 << bits) - 1, trace['counts'][tick][place] + by('add') - by('sub'))))
        trace['counts'].append(after)


def main():
    lines, values = [], []
    for _ in range(60):
        signals = [('signal', some_width(), place) for place in range(draw.randint(1, 5))]
        rows = []
        for _ in range(TICKS):
            rows.append([rows[-1][place] if rows and draw.randrange(3) == 0 else number(bits)
                         for _, bits, place in signals])
        lines.append('trace')
        lines += ['row ' + ' '.join(map(str, row)) for row in rows]
        widths = [draw.choice([1, 2, 3, 8, 64, 128]) for _ in range(draw.randrange(4))]
        names = signals + [('counter', bits, place) for place, bits in enumerate(widths)]
        counters = []
        for bits in widths:
            clauses = {}
            for name in ('clear', 'load', 'add', 'sub'):
                if draw.randrange(3) > (1 if name in ('clear', 'load') else 0):
                    clauses[name] = [expression(names, 1) for _ in range(1 if name == 'clear' else 2)]
            counters.append((bits, clauses))
            lines.append(' '.join(['counter', str(bits)]
                                  + [word for name, trees in clauses.items() for tree in trees + [None]
                                                            for word in (words(tree) if tree else [name])]))
        lines.append('count')
        trace = {'rows': rows}
        run_counters(counters, trace)
        for place, bits in enumerate(widths):
            lines.append('value 0 counter:%d:%d' % (place, bits))
            values.append(('counter', bits, place, trace))
        for _ in range(14):
            tree = expression(names, draw.choice([1, 2, 2, 3]))
            size = draw.randint(width(tree), MOST) if draw.randrange(3) == 0 else 0
            lines.append('# ' + text(tree))
            lines.append('value %d %s' % (size, ' '.join(words(tree))))
            values.append((tree, size, None, trace))
    with open(sys.argv[1], 'w') as out:
        out.write('\n'.join(lines) + '\n')
    with open(sys.argv[2], 'w') as out:
        for tree, size, place, trace in values:
            if tree == 'counter':
                tree, size = ('counter', size, place), 0
            out.write(' '.join([str(width(tree))]
                               + [str(value(tree, tick, size or width(tree), trace)) for tick in range(TICKS)]) + '\n')


if __name__ == '__main__':
    main()
