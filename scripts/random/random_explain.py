#!/usr/bin/env python3
"""Compares what `svamon explain` tells of failed attempts with an independent judge, on random dumps and texts.

    scripts/random/random_explain.py SVAMON [FAILURES [SEED]]

SVAMON is the program. Dumps and texts are drawn as random_judge.py draws them, until so many failed attempts were
compared (200). Of each attempt are worked out by the definition, with all matches tried: the ends of its antecedent,
and the first from which the consequent has no match; and by reference_values.py the value of each signal and counter
that the assertion reads, at each clock that is shown, and that of each of its booleans where one is shown. Clocks and
times, the assertion's place in the text and the number of failures are looked at, too. At which clocks a boolean is
shown is not, nor whether one is left out, as those are of which no match can come. It stops at the first attempt that
differs, and leaves its files in the working folder.
"""
import pathlib
import re
import subprocess
import sys

import random_judge as drawn
from random_judge import judge, values

draw = drawn.draw
NAMES = {'signal': 's', 'counter': 'c'}
DIGITS = set("0123456789'")


def unit(word):
    """An expression without brackets, braces and blanks, in one spelling."""
    return re.sub(r'[(){}\s]', '', word.replace('~|', '!'))


def number_text(bits, number):
    if bits == 32:
        return '%d' % number
    return "%d'd%d" % (bits, number) if bits <= 4 else "%d'h%x" % (bits, number)


def spelling(tree):
    """An expression without brackets, braces and blanks."""
    kind = tree[0]
    if kind == 'constant':
        return number_text(tree[1], tree[2])
    if kind in NAMES:
        return '%s%d' % (NAMES[kind], tree[2])
    if kind == 'select':
        high, low = tree[2], tree[3]
        return spelling(tree[1]) + ('[%d]' % high if high == low else '[%d:%d]' % (high, low))
    if kind == 'braces':
        return ','.join(spelling(part) for part in tree[1])
    if kind == 'past':
        return '$past%s' % spelling(tree[1]) + ('' if tree[2] == 1 else ',%d' % tree[2])
    if kind in ('change', 'reduce'):
        return tree[1].replace('~|', '!') + spelling(tree[2])
    if kind == 'invert':
        return '~' + spelling(tree[1])
    if kind == 'choose':
        return '%s?%s:%s' % tuple(spelling(part) for part in tree[1:4])
    return spelling(tree[1]) + ''.join(op + spelling(operand) for op, operand in tree[2])


def names_in(tree):
    """The names that an expression reads."""
    if isinstance(tree, tuple) and tree and isinstance(tree[0], str) and tree[0] in NAMES:
        return {tree}
    if isinstance(tree, (tuple, list)):
        return set().union(*(names_in(part) for part in tree))
    return set()


def booleans(tree, bodies):
    """The booleans of a sequence, named ones written out, without what is repeated no time."""
    kind = tree[0]
    if kind == 'boolean':
        return [tree[1]]
    if kind == 'name':
        return booleans(bodies[tree[1]], bodies)
    if kind == 'throughout':
        return [tree[1]] + booleans(tree[2], bodies)
    if kind == 'repeat' and tree[3] == 0:
        return []
    return [found for part in tree[1:] if isinstance(part, tuple) for found in booleans(part, bodies)]


def read_names(trees, counters):
    """The names that some expressions read, through counters too."""
    found, left = set(), set().union(*(names_in(tree) for tree in trees))
    while left:
        found |= left
        clauses = [counters[name[2]][1] for name in left if name[0] == 'counter']
        left = set().union(*(names_in(list(it.values())) for it in clauses)) - found
    return found


class Drawn:
    """An assertion: its line, its sides as functions, and the booleans of both and of disable iff."""

    def __init__(self, place, names, bodies, trace):
        self.kind = kind = draw.choice(['|->', '|=>', ''])
        self.off = values.expression(names, 1) if draw.randrange(3) == 0 else None
        self.label = 'a%d' % place
        sides, self.first = [], judge.TRUE
        shape = '%s'
        if kind:
            tree, _ = drawn.side(names, bodies, trace, kind, False, False, None)
            sides.append(tree)
            self.first = drawn.matcher(tree, bodies, trace)
            self.first = judge.following(self.first) if kind == '|=>' else self.first
            shape = '%s %s %%s' % (drawn.written(tree).replace('%', '%%'), kind)
        tree, _ = drawn.side(names, bodies, trace, kind, False, True, None)
        sides.append(tree)
        self.then = drawn.matcher(tree, bodies, trace)
        self.booleans = [it for side in sides for it in booleans(side, bodies)] + ([self.off] if self.off else [])
        off = 'disable iff (%s) ' % drawn.plain(self.off) if self.off else ''
        self.line = '%s: assert property (@(posedge tb.clk) %s%s);' % (self.label, off, shape % drawn.written(tree))

    def reach(self):
        """How many clocks back the booleans look, and at least one."""
        def of(tree):
            inner = max((of(part) for part in tree if isinstance(part, (tuple, list))), default=0)
            if isinstance(tree, tuple) and tree and tree[0] == 'past':
                return inner + tree[2]
            return inner + (isinstance(tree, tuple) and bool(tree) and tree[0] == 'change')
        return max([1] + [of(tree) for tree in self.booleans])

    def failures(self, trace, total):
        """The failed attempts: the clock that decided and the start."""
        off = drawn.truth(self.off, trace) if self.off else judge.NEVER
        found = [(judge.verdict(self.first, self.then, off, start, total), start) for start in range(total)]
        return sorted((clock, start) for (kind, clock), start in found if kind == 'fails')

    def cause(self, start, clock):
        """The ends of the antecedent by the clock, and the first from which the consequent has no match."""
        seen = clock + 1
        ends = sorted(end - 1 for end in self.first(start, seen) if start < end <= seen)
        return ends, next(end for end in ends if not self.then(end, seen))


def cells(line, edges):
    """What stands in the columns that end at these places."""
    found = []
    for edge in edges:
        held = line[:edge].rsplit(' ', 1)[-1] if len(line) >= edge and line[edge - 1] != ' ' else ''
        found.append(held)
    return found


def shown_text(value, bits):
    return '%d' % value if bits <= 4 or value <= 9 else "'h%x" % value


def plain(label):
    """A label without brackets and blanks, each path as its signal's name."""
    return re.sub(r'tb\.(?:u\d+\.s|w\.r|s)(\d+)', r's\1', unit(label))


def name_rows(rows):
    """How many rows are of signals and counters: the first ones, each of another name."""
    labels = [line.split()[0] for line in rows]
    for at, (line, label) in enumerate(zip(rows, labels)):
        shown = line[len(label) + 2:].strip()[:1]
        if not re.fullmatch(r'[a-z][\w.]*', label) or label in labels[:at] or shown not in DIGITS:
            return at
    return len(rows)


def check_names(rows, edges, clocks, read, trace):
    """The names that the rows of signals and counters show, and what is wrong with one of them, or nothing."""
    names = {spelling(name): name for name in read}
    told = set()
    for line in rows:
        name = names.get(plain(line.split()[0]))
        if name is None:
            return told, 'no name that is read: ' + line
        right = ['..' if clock is None else shown_text(values.value(name, clock, name[1], trace), name[1])
                 for clock in clocks]
        if cells(line, edges) != right:
            return told, '%s\nnot %s' % (line, right)
        told.add(name)
    return told, ''


def check_booleans(rows, edges, clocks, booleans, trace):
    """The booleans that rows show, and what is wrong with one of them, or nothing."""
    trees, told = {}, []
    for tree in booleans:
        trees.setdefault(spelling(tree), []).append(tree)
    for line in rows:
        found = cells(line, edges)
        label = plain(line[:min([edge - len(cell) for edge, cell in zip(edges, found) if cell] or [len(line)])])
        is_right = lambda tree: all(
            cell in ('', '-', '..') or cell == '%d' % (values.value(tree, clock, values.width(tree), trace) != 0)
            for cell, clock in zip(found, clocks))
        if not any(is_right(tree) for tree in trees.get(label, [])):
            return told, 'no boolean of the assertion has these values: %s (%s)' % (line, label)
        told.append(trees[label][0])
    return told, ''


def shown_clocks(whole, booleans, trace):
    """The clocks that a table shows of these: all of 16; of more those at both ends, and of those between the first
    eight at which a boolean changes."""
    if len(whole) <= 16:
        return whole
    truth = lambda tree, clock: values.value(tree, clock, values.width(tree), trace) != 0
    changes = [clock for clock in whole[8:-8] if any(truth(it, clock) != truth(it, clock - 1) for it in booleans)]
    return whole[:8] + changes[:8] + whole[-8:]


def check_told(block, made, count, failure, text, trace, counters):
    """What is wrong with the explanation of a failed attempt, or nothing."""
    clock, start = failure
    head = re.fullmatch(r'FAIL (\w+)  random_explain\.sva:(\d+):(\d+)   began at clock (\d+) \(#(\d+)\), decided at '
                        r'clock (\d+) \(#(\d+)\); (\d+) failed attempts?', block[0])
    if not head:
        return 'no head: ' + block[0]
    row, column = int(head[2]), int(head[3])
    at = text.split('\n')[row - 1].encode()[column - 1:]
    time = lambda it: 10 * it + 5
    if [head[1]] + [int(it) for it in head.groups()[3:]] != [made.label, start, time(start), clock, time(clock), count]:
        return 'another head: ' + block[0]
    if not at.startswith(made.label.encode() + b':'):
        return 'another place: ' + block[0]
    numbers = list(re.finditer(r'\S+', block[1]))[1:]
    edges = [it.end() for it in numbers]
    clocks = [None if it[0] == '..' else int(it[0]) for it in numbers]
    whole = list(range(max(0, start - made.reach()), clock + 1))
    if [it for it in clocks if it is not None] != shown_clocks(whole, made.booleans, trace):
        return 'other clocks: ' + block[1]
    if cells(block[2], edges) != ['..' if it is None else '%d' % time(it) for it in clocks]:
        return 'other times: ' + block[2]
    ends, broken = made.cause(start, clock)
    many, back = len(ends) > 1, int(made.kind == '|=>')
    last = '  antecedent ended at clock%s %s; from %s no match of the consequent is possible after clock %d' % (
        's' if many else '', ', '.join('%d' % max(0, end - back) for end in ends),
        'clock %d' % broken if many or back else 'there', clock)
    if not made.kind:
        last = '  no match is possible after clock %d' % clock
    if block[-1] != last:
        return '%s\nnot%s' % (block[-1], last)
    rows = [line for line in block[3:-1] if line != '  booleans:']
    many = name_rows(rows)
    names, wrong = check_names(rows[:many], edges, clocks, read_names(made.booleans, counters), trace)
    if wrong:
        return wrong
    shown, wrong = check_booleans(rows[many:], edges, clocks, made.booleans, trace)
    left_out = read_names(shown, counters) - names
    return wrong or ('names left out: %s' % left_out if left_out else '')


def case(program, number):
    """A case: how many failed attempts were compared, or what is wrong."""
    signals, counters, names, trace = drawn.random_trace()
    bodies = drawn.declared_sequences(names)
    made = [Drawn(place, names, bodies, trace) for place in range(draw.randint(1, 4))]
    others = [drawn.counter_text(place, bits, clauses) for place, (bits, clauses) in enumerate(counters)]
    others += [drawn.declaration(place, tree) for place, tree in enumerate(bodies)]
    text = re.sub(r'\bs(\d+)\b', drawn.path, drawn.mingled(others, [it.line for it in made]))
    pathlib.Path('random_explain.vcd').write_text(drawn.dump_of(signals, trace['rows']))
    pathlib.Path('random_explain.sva').write_text(text)
    words = [program, 'explain', '--vcd', 'random_explain.vcd', '--sva', 'random_explain.sva', '--most', '65536']
    ran = subprocess.run(words, capture_output=True, text=True, timeout=60)
    if (ran.stdout, ran.stderr, ran.returncode) == drawn.TOO_LONG:
        return 0, ''
    wanted = [(it, failures, failure) for it in made for failures in [it.failures(trace, len(trace['rows']))]
              for failure in failures]
    blocks = [block.rstrip('\n').split('\n') for block in re.split(r'(?m)^(?=FAIL )', ran.stdout) if block]
    if (len(blocks), ran.returncode) != (len(wanted), 1 if wanted else 0):
        return 0, 'status %d, %d explanations, not %d\n%s' % (ran.returncode, len(blocks), len(wanted), ran.stderr)
    for block, (it, failures, failure) in zip(blocks, wanted):
        wrong = check_told(block, it, len(failures), failure, text, trace, counters)
        if wrong:
            return 0, wrong + '\n---\n' + '\n'.join(block)
    return len(wanted), ''


def main():
    if len(sys.argv) not in (2, 3, 4):
        sys.exit(__doc__.splitlines()[0])
    program, most, seed = sys.argv[1], *(int(word) for word in (sys.argv[2:] + ['200', '1'][len(sys.argv) - 2:]))
    draw.seed(seed)
    compared = number = 0
    while compared < most:
        told, wrong = case(program, number)
        if wrong:
            print('case %d of seed %d differs: %s' % (number, seed, wrong))
            return 1
        compared, number = compared + told, number + 1
    for end in ('vcd', 'sva'):
        pathlib.Path('random_explain.' + end).unlink()
    print('%d cases of seed %d, %d failed attempts explained: all the same' % (number, seed, compared))
    return 0


if __name__ == '__main__':
    sys.exit(main())
