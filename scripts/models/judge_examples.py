#!/usr/bin/env python3
"""Works out the reports of examples/ without any program of this repository: scripts/models/judge_examples.py

The dumps are read by a few lines below. Each assertion is written down here once more, as a tree of Python functions,
and judged by the definition itself: for each number of ticks seen, the ends of all matches, with every boolean true at
ticks that weren't seen. It prints the differences from the stored reports; with the word 'write' it writes the reports,
and what crates/demo prints.
"""
import pathlib
import subprocess
import sys

HERE = pathlib.Path(__file__).resolve().parents[2] / 'crates' / 'demo'


def number(digits):
    return int(''.join(c if c in '01' else '0' for c in digits), 2)


def read_dump(path, clock):
    """The values of each variable before each rising edge of the clock, by their paths."""
    words = iter(path.read_text().split())
    scope, codes = [], {}
    for word in words:
        if word == '$enddefinitions':
            break
        if word == '$scope':
            next(words)
            scope.append(next(words))
        elif word == '$upscope':
            scope.pop()
        elif word == '$var':
            kind, size, code, name = (next(words) for _ in range(4))
            codes.setdefault('.'.join(scope + [name]), code)
    values, rows, changes, first = {}, [], {}, True
    watched = codes[clock]

    def step():
        nonlocal changes, first
        if not first and values.get(watched, 0) == 0 and changes.get(watched, 0) == 1:
            rows.append({p: values.get(c, 0) for p, c in codes.items()})
        values.update(changes)
        changes = {}

    started = False
    for word in words:
        if word[0] == '#':
            if started:
                step()
                first = False
            started = True
        elif word[0] in '01xXzZ':
            changes[word[1:]] = number(word[0])
        elif word[0] in 'bB':
            changes[next(words)] = number(word[1:])
        elif word[0] in 'rRsS':
            next(words)
    step()
    return rows


# sequences: a function of the first tick, the ticks seen, and which gives the ends of the matches
def one(value):
    return lambda i, n: {i + 1} if i >= n or value(i) else set()


def delay(r, least, most, s):
    def ends(i, n):
        found = set()
        for j in r(i, n):
            for gap in range(least, most + 1):
                if gap > 0:
                    found |= s(j + gap - 1, n)
                elif j > i:
                    found |= {k for k in s(j - 1, n) if k > j - 1}
        return found
    return ends


def lead(least, most, s):
    return lambda i, n: set().union(*(s(i + gap, n) for gap in range(least, most + 1)))


def repeat(r, least, most):
    def ends(i, n):
        now, found = {i}, {i} if least == 0 else set()
        for count in range(1, most + 1):
            now = set().union(*(r(j, n) for j in now)) if now else set()
            if count >= least:
                found |= now
        return found
    return ends


def either(r, s):
    return lambda i, n: r(i, n) | s(i, n)


def both(r, s):
    return lambda i, n: {max(j, k) for j in r(i, n) for k in s(i, n)}


def meet(r, s):
    return lambda i, n: r(i, n) & s(i, n)


def throughout(value, r):
    return lambda i, n: {j for j in r(i, n) if all(k >= n or value(k) for k in range(i, j))}


def first_match(r):
    """The first match of an antecedent alone."""
    return lambda i, n: set(sorted(r(i, n))[:1])


def verdict(antecedent, consequent, off, start, total):
    disabled = lambda last: next((k for k in range(start, last + 1) if off(k)), None)
    for n in range(start + 1, total + 1):
        matches = antecedent(start, n)
        ends = [j - 1 for j in matches if start < j <= n]
        answers = {e: consequent(e, n) for e in ends}
        going = any(j > n for j in matches)
        if any(not answers[e] for e in ends):
            kind = 'fails'
        elif going:
            continue
        elif not ends:
            kind = 'vacuous'
        elif all(any(j <= n for j in answers[e]) for e in ends):
            kind = 'holds'
        else:
            continue
        stop = disabled(n - 1)
        return ('disabled', stop) if stop is not None else (kind, n - 1)
    stop = disabled(total - 1)
    return ('disabled', stop) if stop is not None else ('open', None)


KINDS = ['holds', 'vacuous', 'fails', 'disabled', 'open']


def report(total, assertions):
    lines, sums = ['svamon 1', f'clocks {total}'], dict.fromkeys(KINDS, 0)
    for name, antecedent, consequent, off in assertions:
        verdicts = [verdict(antecedent, consequent, off, start, total) for start in range(total)]
        counts = {kind: sum(1 for k, _ in verdicts if k == kind) for kind in KINDS}
        for kind in KINDS:
            sums[kind] += counts[kind]
        lines.append(f'monitor {name} ' + ' '.join(f'{kind} {counts[kind]}' for kind in KINDS))
        fails = sorted((clock, start) for start, (kind, clock) in enumerate(verdicts) if kind == 'fails')
        lines += [f'fail {name} start {start} clock {clock}' for clock, start in fails]
    lines.append('total ' + ' '.join(f'{kind} {sums[kind]}' for kind in KINDS))
    return '\n'.join(lines) + '\n', sums['fails']


TRUE = one(lambda k: True)
NEVER = lambda k: False


def overlapped(r):
    return r


def following(r):
    return delay(r, 1, 1, TRUE)


class Trace:
    def __init__(self, rows, prefix='tb.'):
        self.rows, self.prefix = rows, prefix

    def __call__(self, name, k, back=0):
        return self.rows[k - back][self.prefix + name] if k >= back else 0

    def is_one(self, name):
        return lambda k: self(name, k) != 0

    def low(self, name):
        return lambda k: self(name, k) == 0


def handshake(t):
    off = t.low('rst_n')
    rose = one(lambda k: t('req', k) & 1 and not t('req', k, 1) & 1)
    return [
        ('granted', rose, lead(1, 5, one(t.is_one('gnt'))), off),
        ('waits', following(one(lambda k: t('req', k) and not t('gnt', k))), one(t.is_one('req')), off),
        ('asked', one(t.is_one('gnt')),
         delay(one(t.is_one('req')), 1, 1, one(lambda k: not t('req', k) and not t('gnt', k))), NEVER),
    ]


def pipeline(t):
    valid = one(t.is_one('out_valid'))
    return [
        ('added', valid, one(lambda k: t('out', k) == (t('in', k, 2) + 1) % 256), NEVER),
        ('kept', one(t.is_one('in_valid')), lead(2, 2, valid), NEVER),
        ('only', valid, one(lambda k: t('in_valid', k, 2)), NEVER),
    ]


def outstanding(t):
    waiting, value = [], 0
    for k in range(len(t.rows)):
        waiting.append(value)
        if not t('rst_n', k):
            value = 0
        else:
            value = min(15, max(0, value + (t('ask', k) and t('ready', k)) - t('answer', k)))
    off = t.low('rst_n')
    answers = one(t.is_one('answer'))
    return [
        ('at_most_four', TRUE, one(lambda k: waiting[k] <= 4), off),
        ('asked_for', answers, one(lambda k: waiting[k] > 0), off),
        ('drains', following(one(lambda k: waiting[k] >= 4 and t('answer', k))),
         one(lambda k: waiting[k] == ((waiting[k - 1] if k else 0) - 1) % 16), off),
    ]


def reset(t):
    counts = one(lambda k: t('count', k) == (t('count', k, 1) + 1) % 16)
    off = t.low('rst_n')
    return [
        ('counts', following(TRUE), counts, NEVER),
        ('counts_in_use', following(TRUE), counts, off),
        ('three_clocks', repeat(one(t.is_one('rst_n')), 3, 3), one(lambda k: t('count', k) >= 2), off),
    ]


def fifo_arb(t):
    off = t.low('rst_n')
    pushes = lambda k: t('push', k) and not t('full', k)
    pops = lambda k: t('pop', k) and not t('empty', k)
    push_alone, pop_alone = one(lambda k: pushes(k) and not pops(k)), one(lambda k: pops(k) and not pushes(k))
    full = one(t.is_one('full'))
    return [
        ('one_grant', TRUE, one(lambda k: bin(t('gnt', k)).count('1') <= 1), off),
        ('grant_was_asked', one(t.is_one('push')), one(lambda k: t('gnt', k) & t('req', k)), off),
        ('push_has_room', one(t.is_one('push')), one(t.low('full')), off),
        ('level_up', following(push_alone), one(lambda k: t('level', k) == (t('level', k, 1) + 1) % 16), off),
        ('level_down', following(pop_alone), one(lambda k: t('level', k) == (t('level', k, 1) - 1) % 16), off),
        ('served', one(lambda k: t('req', k) & 1 and not t('req', k, 1) & 1),
         lead(0, 60, one(lambda k: t('push', k) and t('gnt', k) & 1)), off),
        ('full_holds', following(one(lambda k: t('full', k) and not t('pop', k))),
         throughout(t.is_one('full'), one(lambda k: t('level', k) == 8)), off),
        ('fills', following(delay(one(t.is_one('empty')), 1, 1, repeat(push_alone, 8, 8))), full, off),
        ('none_lost', one(lambda k: t('full', k) and t('pop', k)),
         lead(1, 1, either(one(t.low('full')), one(t.is_one('push')))), off),
        ('known_level', TRUE, one(lambda k: t('level', k) <= 8 and t('full', k) == (t('level', k) == 8)
                                  and t('empty', k) == (t('level', k) == 0)), NEVER),
    ]


def full_is_popped(t):
    return [('full_is_popped', following(one(t.is_one('full'))), one(t.is_one('pop')), NEVER)]


def push_needs_a_request(t):
    return [('push_needs_a_request', one(t.is_one('push')), one(t.is_one('req')), NEVER)]


def one_then_down(t):
    return [('one_then_down', following(one(t.is_one('one'))), one(t.is_one('dn')), NEVER)]


def fails_at_its_tick(t):
    return [('r', one(t.is_one('x')), one(t.is_one('y')), NEVER)]


def whole_profile(t):
    a, b, c, d, e, g = (one(t.is_one(name)) for name in 'abcdeg')
    long = throughout(t.is_one('a'), delay(b, 2, 2, c))
    ticks = lambda k: min(k, 3)
    return [
        ('lengths', g, both(long, delay(d, 1, 1, e)), NEVER),
        ('grows', TRUE, one(lambda k: t('data', k) != t('data', k, 1) and t('data', k) % 8 > 1), NEVER),
        ('assert_3', following(one(lambda k: ticks(k) == 0)), lead(0, 1, one(lambda k: 2 * t('d', k) + t('e', k) == 1)),
         t.is_one('e')),
    ]


EXAMPLES = {
    'fails_at_its_tick': fails_at_its_tick,
    'one_then_down': one_then_down,
    'push_needs_a_request': push_needs_a_request,
    'full_is_popped': full_is_popped,
    'whole_profile': whole_profile,
    'handshake': handshake,
    'pipeline': pipeline,
    'outstanding': outstanding,
    'reset': reset,
    'fifo_arb': fifo_arb,
}


TOP = ['fails_at_its_tick', 'whole_profile']


def shown_port(write):
    """What crates/demo prints of the example with an AXI4 port; its report is that of scripts/axi4_judge.py."""
    folder = HERE / 'data' / 'axi_port'
    words = [sys.executable, str(pathlib.Path(__file__).resolve().with_name('axi4_judge.py')), str(folder / 'dump.vcd'),
             str(folder / 'ports.txt')]
    text = subprocess.run(words, capture_output=True, text=True, check=True).stdout
    compare(folder / 'report.txt', text, write)
    return '== axi_port\n' + (folder / 'ports.txt').read_text() + text + 'status 1\n'


def main():
    write = sys.argv[1:] == ['write']
    shown = shown_port(write)
    for name, judge in EXAMPLES.items():
        folder = HERE / 'data' / name
        prefix = 'top.' if name in TOP else 'tb.'
        rows = read_dump(folder / 'dump.vcd', prefix + 'clk')
        text, fails = report(len(rows), judge(Trace(rows, prefix)))
        shown += f'== {name}\n' + (folder / 'assertion.sva').read_text() + text + f'status {1 if fails else 0}\n'
        compare(folder / 'report.txt', text, write)
    compare(HERE / 'stdout', shown, write)


def compare(stored, text, write):
    if write:
        stored.write_text(text)
    print(stored.relative_to(HERE), 'same' if stored.exists() and stored.read_text() == text else 'DIFFERS')


if __name__ == '__main__':
    main()
