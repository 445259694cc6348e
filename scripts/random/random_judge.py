#!/usr/bin/env python3
"""Compares svamon with an independent judge on random dumps and texts.

    scripts/random/random_judge.py SVAMON [CASES [SEED]]

SVAMON is the program. Each case is a dump of some signals over some clocks, and a text with counters, named sequences
and assertions. In one case of four sides may be degenerate, admit an empty match or weigh about 127 or more, and then a
refusal is compared. Values of expressions and counters are those of reference_values.py, verdicts those of
judge_examples.py, which tries all matches; nothing is taken from svamon.

Drawn are: each form of sequence; antecedents in first_match; the operators and functions of expressions, and numbers of
each base; brackets where the grammar asks for them, and now and then where it doesn't; zeros of a dump written as 0, x
or z; changes before the edge and in its step; changes left out where the value stays; pulses between the steps; a clock
that falls to x or z, or is 1 at first; two names of one variable, in other scopes. Not drawn are $dumpoff, faults but
Y5, Y6 and Y9, and traces of more than 20 clocks. It stops at the first case whose report, refusal or status differs, or
that takes over a minute, and leaves its files in the working folder. A case that `check` doesn't compile (K2), by any
team, is compared by `judge` alone, and counted; more than one in a thousand is told as a difference.
"""
import pathlib
import re
import subprocess
import sys

sys.path.insert(0, str(pathlib.Path(__file__).resolve().parents[1] / "models"))

import judge_examples as judge
import reference_values as values

HEAVIEST = 127
MARK = '`'
SECONDS = 60
TOO_LONG = ('', 'svamon: K2 CodeTooLong\n', 2)
# Each case is checked by each of these teams, through each of these windows.
TEAMS = [('check', '--workers', workers, '--window', window) for workers in ('1', '2', '4', '64')
         for window in ('1', '3', '1024')]
draw = values.draw


# sequences, as tuples; the operators from the tightest
LOOSENESS = {'boolean': 0, 'name': 0, 'repeat': 1, 'delay': 2, 'lead': 2, 'throughout': 3, 'intersect': 4, 'and': 5,
             'or': 6}


def bounds():
    most = draw.choice([2, 4, 4, 12])
    low = draw.randint(0, most)
    return low, draw.choice([low, draw.randint(low, most)])


def sequence(names, declared, depth):
    """A random sequence over the names, which may use the named sequences that are declared."""
    if depth == 0 or draw.randrange(6) == 0:
        if declared and draw.randrange(3) == 0:
            return ('name', draw.randrange(declared))
        return ('boolean', values.expression(names, draw.choice([0, 0, 1, 2, 3])))
    part = lambda: sequence(names, declared, depth - 1)
    kind = draw.randrange(7)
    if kind <= 1:
        return ('delay', part(), *draw.choice([(1, 1), (0, 0), bounds()]), part())
    if kind == 2:
        return ('lead', *bounds(), part())
    if kind == 3:
        return ('repeat', part(), *bounds())
    if kind == 4:
        return ('throughout', values.expression(names, draw.choice([0, 1, 2])), part())
    return (draw.choice(['and', 'or', 'intersect']), part(), part())


def weight(tree, bodies):
    kind = tree[0]
    if kind == 'boolean':
        return 1
    if kind == 'name':
        return weight(bodies[tree[1]], bodies)
    if kind == 'delay':
        return weight(tree[1], bodies) + weight(tree[4], bodies) + tree[3]
    if kind == 'lead':
        return weight(tree[3], bodies) + tree[2]
    if kind == 'repeat':
        return weight(tree[1], bodies) * tree[3]
    if kind == 'throughout':
        return weight(tree[2], bodies)
    left, right = weight(tree[1], bodies), weight(tree[2], bodies)
    return {'and': (left + 1) * (right + 1), 'intersect': left * right, 'or': left + right}[kind]


def truth(tree, trace):
    """At which clocks an expression is true."""
    seen = {}

    def is_true(clock):
        if clock not in seen:
            seen[clock] = values.value(tree, clock, values.width(tree), trace) != 0
        return seen[clock]
    return is_true


def matcher(tree, bodies, trace):
    """The ends of the matches, as judge_examples.py has them."""
    kind = tree[0]
    part = lambda r: matcher(r, bodies, trace)
    if kind == 'boolean':
        return judge.one(truth(tree[1], trace))
    if kind == 'name':
        return part(bodies[tree[1]])
    if kind == 'delay':
        return judge.delay(part(tree[1]), tree[2], tree[3], part(tree[4]))
    if kind == 'lead':
        return judge.lead(tree[1], tree[2], part(tree[3]))
    if kind == 'repeat':
        return judge.repeat(part(tree[1]), tree[2], tree[3])
    if kind == 'throughout':
        return judge.throughout(truth(tree[1], trace), part(tree[2]))
    return {'and': judge.both, 'intersect': judge.meet, 'or': judge.either}[kind](part(tree[1]), part(tree[2]))


# expressions as one writes them; the operators of two operands from the tightest
LEVELS = [['+', '-'], ['<<', '>>'], ['<', '<=', '>', '>='], ['==', '!='], ['&'], ['^', '~^'], ['|'], ['&&'], ['||']]


def constant(bits, number):
    if bits == 32 and draw.randrange(2):
        return '%d' % number
    base = draw.choice('hdbo')
    digits = format(number, {'h': 'x', 'd': 'd', 'b': 'b', 'o': 'o'}[base])
    return "%d'%s%s" % (bits, base, digits if len(digits) < 3 or draw.randrange(2) else digits[0] + '_' + digits[1:])


def select(tree):
    name, high, low = '%s%d' % (tree[1][0][0], tree[1][2]), tree[2], tree[3]
    return '%s[%d]' % (name, high) if high == low else '%s[%d:%d]' % (name, high, low)


def past(tree):
    whole = plain(tree[1])
    return '$past(%s)' % whole if tree[2] == 1 and draw.randrange(2) else '$past(%s, %d)' % (whole, tree[2])


def chain(tree):
    """Operators of one level, with the level."""
    level = next(place for place, ops in enumerate(LEVELS, 2) if tree[2][0][0] in ops)
    mixed = level if all(op in LEVELS[level - 2] for op, _ in tree[2]) else None
    ops = [(draw.choice(['~^', '^~']) if op == '~^' else op, operand) for op, operand in tree[2]]
    return level, plain(tree[1], mixed or 0) + ''.join(' %s %s' % (op, plain(operand, level - 1))
                                                       for op, operand in ops)


def loose(tree):
    """How loose an expression is, from 0 for what is whole, and how it is written."""
    kind = tree[0]
    if kind == 'constant':
        return 0, constant(tree[1], tree[2])
    if kind in ('signal', 'counter'):
        return 0, '%s%d' % (kind[0], tree[2])
    if kind == 'select':
        return 0, select(tree)
    if kind == 'braces':
        return 0, '{%s}' % ', '.join(plain(part) for part in tree[1])
    if kind == 'past':
        return 0, past(tree)
    if kind == 'change' or tree[1] in ('$onehot', '$onehot0'):
        return 0, '%s(%s)' % (tree[1], plain(tree[2]))
    if kind == 'invert':
        return 1, '~' + plain(tree[1], 0)
    if kind == 'reduce':
        return 1, tree[1] + plain(tree[2], 0)
    if kind == 'choose':
        return 11, '%s ? %s : %s' % (plain(tree[1], 10), plain(tree[2]), plain(tree[3]))
    return chain(tree)


def plain(tree, loosest=11):
    level, text = loose(tree)
    return text if level <= loosest and draw.randrange(8) else '(%s)' % text


# sequences as one writes them
def counts(low, high):
    return '%d' % low if low == high and draw.randrange(3) else '%d:%d' % (low, high)


def gap(low, high):
    many = counts(low, high)
    return '##[%s]' % many if ':' in many else '##' + many


def written(tree, loosest=6):
    """The sequence as one writes it, in brackets where it is looser than it may be."""
    kind = tree[0]
    if kind == 'boolean':
        text = plain(tree[1])
    elif kind == 'name':
        text = 'n%d' % tree[1]
    elif kind == 'delay':
        text = '%s %s %s' % (written(tree[1], 2), gap(tree[2], tree[3]), written(tree[4], 1))
    elif kind == 'lead':
        text = '%s %s' % (gap(tree[1], tree[2]), written(tree[3], 1))
    elif kind == 'repeat':
        text = '%s[*%s]' % (written(tree[1], 0), counts(tree[2], tree[3]))
    elif kind == 'throughout':
        text = '%s throughout %s' % (plain(tree[1]), written(tree[2], 3))
    else:
        text = '%s %s %s' % (written(tree[1], LOOSENESS[kind]), kind, written(tree[2], LOOSENESS[kind] - 1))
    return text if LOOSENESS[kind] <= loosest else '(%s)' % text


def fault_of(tree, bodies, trace, kind, is_first, is_consequent):
    """What is wrong with a side, as its rank and line. The antecedent of |=> is judged as it is rewritten, and of
    first_match the first match."""
    is_rewritten = kind == '|=>' and not is_consequent
    if weight(tree, bodies) + 2 * is_rewritten > HEAVIEST:
        return 0, 'Y9 TooWide'
    plain = matcher(tree, bodies, trace)
    whole = judge.following(plain) if is_rewritten else plain
    ends = (judge.first_match(whole) if is_first else whole)(0, 0)
    if max(ends, default=0) == 0:
        return 1, 'Y5 Degenerate'
    if is_consequent and 0 in ends:
        return 2, 'Y6 AdmitsEmpty'
    return None


def heavier(tree, bodies):
    """The same later, so that it weighs about the most that a side may weigh."""
    ticks = min(HEAVIEST, draw.choice([HEAVIEST - 2, HEAVIEST - 1, HEAVIEST, HEAVIEST + 1]) - weight(tree, bodies))
    return ('lead', draw.choice([ticks, 0, ticks // 2]), ticks, tree) if ticks > 0 else tree


def side(names, bodies, trace, kind, is_first, is_consequent, wanted):
    """A sequence for a side of an assertion, and what is wrong with it: nothing, or, if it is there, the wanted
    fault."""
    while True:
        tree = sequence(names, len(bodies), draw.choice([0, 1, 1, 2, 3]))
        if wanted == 'Y9' or not wanted and draw.randrange(16) == 0:
            tree = heavier(tree, bodies)
        if weight(tree, bodies) <= 4 * HEAVIEST:
            fault = fault_of(tree, bodies, trace, kind, is_first, is_consequent)
            if not fault or wanted and fault[1].startswith(wanted):
                return tree, fault


def refusal(text, faults):
    """The first fault of the sides, which are marked in the text, and the text without the marks."""
    marks = [found.start() - count for count, found in enumerate(re.finditer(MARK, text))]
    text = text.replace(MARK, '')
    places = [at + len(re.match('[( ]*', text[at:]).group()) for at in marks]
    standing = sorted((fault[0], at, fault[1]) for fault, at in zip(faults, places) if fault)
    return text, 'svamon: %s %d\n' % (standing[0][2], standing[0][1]) if standing else ''


def declared_sequences(names):
    bodies, wanted = [], draw.randrange(4)
    while len(bodies) < wanted:
        tree = sequence(names, len(bodies), 2)
        if weight(tree, bodies) <= 12:
            bodies.append(tree)
    return bodies


def declaration(place, tree):
    return 'sequence n%d; %s%s endsequence%s' % (place, written(tree), draw.choice(['', ';']),
                                                 draw.choice(['', ': n%d' % place]))


def counter_text(place, bits, clauses):
    parts = ['%s(%s)' % (name, ', '.join(plain(tree) for tree in trees)) for name, trees in clauses.items()]
    return 'counter c%d [%d] %s;' % (place, bits, ' '.join(parts))


def vector(number, bits):
    """The digits of a number, with zeros of every kind, and those in front left out at times."""
    digits = format(number, 'b') if draw.randrange(2) else format(number, '0%db' % bits)
    return ''.join('1' if digit == '1' else draw.choice('000xz') for digit in digits)


def change(number, bits, code):
    if bits == 1 and draw.randrange(4):
        return '%s%s\n' % ('1' if number else draw.choice('000xz'), code)
    return 'b%s %s\n' % (vector(number, bits), code)


class Changes:
    """The text of a dump's changes, and what stands."""

    def __init__(self, signals):
        self.signals, self.text, self.held = signals, [], [0] * len(signals)

    def step(self, time, places, row, more=()):
        """A time step in which these signals take their values in the row; one that stays may be left out."""
        changes = list(more)
        for place in places:
            if row[place] != self.held[place] or draw.randrange(2):
                changes.append(change(row[place], self.signals[place][1], 's%d' % place))
            self.held[place] = row[place]
        draw.shuffle(changes)
        if changes or draw.randrange(4) == 0:
            self.text += ['#%d\n' % time] + changes


def header(signals):
    """Each signal in tb, or in a scope of its own, and at times once more by another name with the same code."""
    text = '$timescale 1ns $end\n$scope module tb $end\n$var reg 1 ! clk $end\n'
    for _, bits, place in signals:
        var = '$var wire %d s%d %%s%d [%d:0] $end\n' % (bits, place, place, bits - 1)
        text += '$scope module u%d $end\n%s$upscope $end\n' % (place, var % 's') if place % 2 else var % 's'
        text += '$scope task w $end\n%s$upscope $end\n' % (var % 'r') if place % 3 == 0 else ''
    return text + '$upscope $end\n$enddefinitions $end\n'


def path(found):
    place = int(found.group(1))
    if place % 3 == 0 and draw.randrange(2):
        return 'tb.w.r%d' % place
    return 'tb.u%d.s%d' % (place, place) if place % 2 else 'tb.s%d' % place


def dump_of(signals, rows):
    """A dump whose clock rises once for each row, a row being what stands before the edge."""
    changes, places = Changes(signals), range(len(signals))
    low = lambda: draw.choice('00xz') + '!\n'
    early = [place for place in places if draw.randrange(2)]
    if draw.randrange(4):
        changes.step(0, early, rows[0], [low()])
    else:
        changes.step(0, early, rows[0], ['1!\n'])
        changes.step(1, [], rows[0], [low()])
    for clock, row in enumerate(rows):
        left = [place for place in places if place not in early]
        if draw.randrange(3) == 0:
            changes.step(10 * clock + 2, left, [values.number(bits) for _, bits, _ in signals])
        changes.step(10 * clock + 3, left, row)
        following = rows[clock + 1] if clock + 1 < len(rows) else row
        early = [place for place in places if draw.randrange(3) == 0]
        changes.step(10 * clock + 5, early, following, ['1!\n'])
        changes.step(10 * clock + 10, [], row, [low()])
    return header(signals) + ''.join(changes.text)


def random_trace():
    """Signals, their rows, counters, and the trace of both."""
    values.TICKS = draw.choice([1, 2, 5, 12, 20])
    signals = [('signal', draw.choice([1, 1, 1, 2, 3, 8]), place) for place in range(draw.randint(1, 5))]
    rows = []
    for _ in range(values.TICKS):
        rows.append([rows[-1][place] if rows and draw.randrange(2) else values.number(bits)
                     for _, bits, place in signals])
    widths = [draw.choice([1, 2, 3, 8]) for _ in range(draw.randrange(3))]
    names = signals + [('counter', bits, place) for place, bits in enumerate(widths)]
    counters = []
    for bits in widths:
        chosen = [name for name in ('clear', 'load', 'add', 'sub') if draw.randrange(3)]
        counters.append((bits, {name: [values.expression(names, 1) for _ in range(1 if name == 'clear' else 2)]
                                for name in chosen}))
    trace = {'rows': rows}
    values.run_counters(counters, trace)
    return signals, counters, names, trace


def assertion(place, names, bodies, trace, wanted):
    """An assertion's line with its sides marked, what its sides lack, and what judge_examples.py takes."""
    off = values.expression(names, draw.choice([0, 1, 2])) if draw.randrange(3) == 0 else None
    kind = draw.choice(['|->', '|=>', ''])
    is_first = kind != '' and draw.randrange(3) == 0
    label = 'a%d' % place if draw.randrange(3) else None
    shape, faults, first = '%s', [], judge.TRUE
    if kind:
        antecedent, fault = side(names, bodies, trace, kind, is_first, False, wanted)
        faults.append(fault)
        first = matcher(antecedent, bodies, trace)
        first = judge.following(first) if kind == '|=>' else first
        first = judge.first_match(first) if is_first else first
        shape = '%s%s %s %%s' % (MARK, 'first_match(%s)' % written(antecedent) if is_first else written(antecedent),
                                 kind)
    consequent, fault = side(names, bodies, trace, kind, False, True, wanted)
    faults.append(fault)
    shape = shape.replace('%s', MARK + written(consequent))
    if draw.randrange(6) == 0 and kind:
        shape = '(%s)' % shape
    line = '%s%s property (@(posedge tb.clk) %s%s);' % (label + ': ' if label else '',
                                                        draw.choice(['assert', 'assert', 'assume']),
                                                        'disable iff (%s) ' % plain(off) if off else '', shape)
    taken = (label or 'assert_%d' % (place + 1), first, matcher(consequent, bodies, trace),
             truth(off, trace) if off else judge.NEVER)
    return line, faults, taken


def mingled(others, lines):
    """The lines in their order, with the others at any place between them."""
    whole = list(lines)
    for other in others:
        whole.insert(draw.randint(0, len(whole)), other)
    return ''.join(line + draw.choice(['\n', ' // a note\n', ' /* a\nnote */\n']) for line in whole)


def case():
    """A dump, a text, its report or its refusal, and the status."""
    signals, counters, names, trace = random_trace()
    bodies = declared_sequences(names)
    wanted = draw.choice(['Y5', 'Y6', 'Y9']) if draw.randrange(4) == 0 else None
    made = [assertion(place, names, bodies, trace, wanted) for place in range(draw.randint(1, 4))]
    others = [counter_text(place, bits, clauses) for place, (bits, clauses) in enumerate(counters)]
    others += [declaration(place, tree) for place, tree in enumerate(bodies)]
    text = re.sub(r'\bs(\d+)\b', path, mingled(others, [line for line, _, _ in made]))
    text, refused = refusal(text, [fault for _, faults, _ in made for fault in faults])
    report, fails = ('', 0) if refused else judge.report(len(trace['rows']), [taken for _, _, taken in made])
    return dump_of(signals, trace['rows']), text, report, refused, 2 if refused else 1 if fails else 0


def main():
    if len(sys.argv) not in (2, 3, 4):
        sys.exit(__doc__.splitlines()[0])
    program, cases, seed = sys.argv[1], *(int(word) for word in (sys.argv[2:] + ['200', '1'][len(sys.argv) - 2:]))
    draw.seed(seed)
    attempts = refusals = too_long = 0
    for number in range(cases):
        dump, text, report, refused, status = case()
        dump_file, text_file, report_file = (pathlib.Path('random_judge.' + end) for end in ('vcd', 'sva', 'report'))
        dump_file.write_text(dump)
        text_file.write_text(text)
        report_file.write_text(report)
        answers = {}
        for command in (*TEAMS, ('judge',)):
            words = [program, *command, '--vcd', str(dump_file), '--sva', str(text_file)]
            try:
                ran = subprocess.run(words, capture_output=True, text=True, timeout=SECONDS)
            except subprocess.TimeoutExpired:
                print('case %d of seed %d takes over %d s: %s' % (number, seed, SECONDS, ' '.join(words)))
                return 1
            answers[command] = ran.stdout, ran.stderr, ran.returncode
        compiled = [answer for command, answer in answers.items() if command[0] == 'check']
        if status != 2 and all(answer == TOO_LONG for answer in compiled) and 1000 * (too_long + 1) <= max(cases, 1000):
            too_long += 1
            answers = {('judge',): answers['judge',]}
        for command, answer in answers.items():
            if answer != (report, refused, status):
                print('case %d of seed %d differs (%s): status %d, not %d' % (number, seed, ' '.join(command),
                                                                              answer[2], status))
                print(text + '--- svamon\n' + answer[0] + answer[1] + '--- by the definition\n' + report + refused)
                return 1
        refusals += status == 2
        attempts += sum(int(word) for line in report.splitlines() if line.startswith('total')
                        for word in line.split()[2::2])
    for made in (dump_file, text_file, report_file):
        made.unlink()
    found = '%d cases of seed %d, %d of them refused, %d too long to compile, %d attempts: all the same'
    print(found % (cases, seed, refusals, too_long, attempts))
    return 0


if __name__ == '__main__':
    sys.exit(main())
