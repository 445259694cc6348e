#!/usr/bin/env python3
"""Works out the reports of the team files in examples/ without svamon: scripts/models/judge_team_files.py ['write']

Each folder below has a team's file, `checks.sv`, and its report over the folder's dump, `checks.txt`. What each
assertion of the file says is written down here once more, as a tree of property_model.py, and judged by that model.
It prints the differences from the stored reports; with the word 'write' it writes them.
"""
import sys

from judge_examples import HERE, KINDS, Trace, compare, read_dump
from property_model import Model

TRUE = ('constant', 1)


def at(test):
    return ('boolean', ('test', test))


def now(test):
    return ('sequence', at(test))


def seq(sequence):
    return ('sequence', sequence)


def then(first, second, least=1, most=1):
    return ('delay', first, least, most, second)


def lead(least, most, body):
    return ('lead', least, most, body)


def imp(end, body):
    return ('implication', end, body)


def nxt(end, body):
    return ('next_implication', end, body)


def goto(test, least=1, most=1):
    return ('goto', ('test', test), least, most)


def choice(test, first, second):
    return ('if_else', ('test', test), first, second)


def low(test):
    return lambda k: not test(k)


def all_of(*tests):
    return lambda k: all(test(k) for test in tests)


def names(t, *words):
    """Of each name a test: it isn't 0."""
    return [t.is_one(word) for word in words]


def rose(test):
    return lambda k: test(k) and not (k > 0 and test(k - 1))


def fell(test):
    return lambda k: not test(k) and k > 0 and test(k - 1)


def stable(t, *words):
    return lambda k: all(t(word, k) == t(word, k, 1) for word in words)


def up(t, word, by, size):
    """A counter has gone on from the clock before."""
    return lambda k: t(word, k) == (t(word, k, 1) + by) % size


def past(test, back=1):
    return lambda k: k >= back and test(k - back)


def handshake(t):
    req, gnt = names(t, 'req', 'gnt')
    asks, done, asked = all_of(req, low(gnt)), all_of(req, gnt), rose(req)
    quiet, new = low(gnt), at(asked)
    return [
        ('a_granted', imp(new, seq(lead(1, 5, at(gnt))))),
        ('a_waits', nxt(at(asks), now(req))),
        ('a_granted_asks', imp(at(gnt), now(req))),
        ('a_both_end', nxt(at(gnt), now(all_of(low(req), quiet)))),
        ('a_never_alone', ('not', now(all_of(gnt, low(req))))),
        ('a_not_at_once', imp(new, ('not', now(gnt)))),
        ('a_no_two', imp(at(gnt), ('not', seq(lead(1, 1, at(gnt)))))),
        ('a_no_glitch', ('not', seq(then(new, at(low(req)))))),
        ('a_next', imp(at(gnt), ('next', 1, now(quiet)))),
        ('a_next_two', imp(at(fell(gnt)), ('next', 2, now(quiet)))),
        ('a_until', imp(new, ('until', now(req), now(gnt)))),
        ('a_until_with', imp(at(asks), ('until_with', now(req), now(gnt)))),
        ('a_s_until', imp(new, ('until', now(asks), now(done)))),
        ('a_goto', imp(new, seq(goto(gnt)))),
        ('a_goto_ends', imp(new, seq(then(goto(gnt), at(low(req)))))),
        ('a_open_delay', imp(new, seq(lead(1, None, at(gnt))))),
        ('a_in_time', imp(new, ('eventually', 1, 6, now(gnt)))),
        ('a_ends', imp(at(req), ('eventually', 0, None, now(low(req))))),
        ('a_throughout', imp(new, seq(('throughout', ('test', req), goto(gnt))))),
        ('a_after_two', nxt(('repeat', at(asks), 2, 2), now(req))),
        ('a_first_grant', nxt(('first', then(new, at(gnt), 1, 7)), now(low(req)))),
        ('a_nested', imp(new, nxt(at(asks), now(req)))),
        ('a_in_order', nxt(then(at(gnt), at(low(req))), seq(('or', then(at(req), at(quiet)), at(low(req)))))),
        ('a_both', imp(new, seq(('and', then(at(req), at(req)), lead(1, 6, at(gnt)))))),
        ('a_same_length', imp(new, seq(('intersect', lead(1, 6, at(gnt)),
                                        then(('repeat', at(asks), 1, 6), ('boolean', TRUE)))))),
        ('a_still_quiet', imp(at(fell(gnt)), ('always', 0, 1, now(quiet)))),
        ('a_followed', imp(new, ('followed', at(req), now(quiet)))),
        ('a_counts', nxt(at(asks), now(up(t, 'waited', 1, 8)))),
        ('a_from_zero', imp(new, now(t.low('waited')))),
        ('a_served', nxt(at(done), now(up(t, 'served', 1, 16)))),
        ('a_served_kept', nxt(at(low(done)), now(stable(t, 'served')))),
        ('a_patience', nxt(at(asks), now(stable(t, 'patience')))),
        ('a_choices', imp(new, now(lambda k: t('patience', k) in (0, 1, 2, 3, 6)))),
        ('a_slow', imp(at(all_of(asked, lambda k: t('served', k) != 7)), now(lambda k: t('patience', k) < 4))),
        ('a_shifts', seq(lead(1, 1, at(lambda k: t('noise', k) >> 1 == t('noise', k, 1) & 0x7fff)))),
        ('a_noise', now(t.is_one('noise'))),
        ('a_if', choice(req, now(lambda k: t('waited', k) <= 7), now(quiet))),
        ('a_case', choice(low(req), now(quiet), now(lambda k: t('waited', k) <= t('patience', k) + 1))),
        ('a_same', ('iff', now(done), now(gnt))),
        ('m_grant', imp(at(gnt), now(req))),
        ('r_served', now(lambda k: t('served', k) <= 15)),
    ]


def outstanding(t):
    ask, ready, answer = names(t, 'ask', 'ready', 'answer')
    taken = all_of(ask, ready)
    fill = lambda test: lambda k: test(t('pending', k))
    is_ = lambda count: fill(lambda n: n == count)
    full, under, some = is_(4), fill(lambda n: n < 4), fill(lambda n: n > 0)
    gone = lambda k: t('pending', k) == (t('pending', k, 1) + past(taken)(k) - past(answer)(k)) % 8
    ones = lambda k: (t('pending', k) == 0) + bool(answer(k))
    return [
        ('m_at_most', now(fill(lambda n: n <= 4))),
        ('m_bound', now(fill(lambda n: n < 9))),
        ('m_steps', seq(lead(1, 1, at(gone)))),
        ('m_up', nxt(at(all_of(taken, low(answer))), now(up(t, 'pending', 1, 8)))),
        ('m_down', nxt(at(all_of(answer, low(taken))), now(up(t, 'pending', -1, 8)))),
        ('m_kept', nxt(at(lambda k: bool(taken(k)) == bool(answer(k))), now(stable(t, 'pending')))),
        ('m_answers', imp(at(answer), now(some))),
        ('m_ready', imp(at(ready), now(fill(lambda n: n <= 4)))),
        ('m_full', imp(at(full), now(low(ready)))),
        ('m_not_full', imp(at(under), now(ready))),
        ('m_never_six', ('not', now(fill(lambda n: n >= 6)))),
        ('m_never_jumps', ('not', seq(then(at(is_(1)), at(is_(3)))))),
        ('m_never_empties', ('not', seq(then(at(is_(2)), at(is_(0)))))),
        ('m_drains', imp(at(full), seq(lead(1, None, at(under))))),
        ('m_waits', imp(at(all_of(ask, low(ready))), ('until', now(low(ready)), now(answer)))),
        ('m_stays', imp(at(full), ('until_with', now(fill(lambda n: n >= 4)), now(answer)))),
        ('m_leaves', imp(at(full), ('until', now(fill(lambda n: n >= 3)), now(answer)))),
        ('m_answered', imp(at(rose(is_(1))), seq(goto(answer)))),
        ('m_twice', imp(at(rose(is_(2))), seq(then(goto(answer, 1, 2), ('boolean', TRUE))))),
        ('m_soon', imp(at(is_(3)), ('eventually', 0, None, now(lambda k: answer(k) or full(k))))),
        ('m_within', imp(at(full), ('eventually', 0, 30, now(answer)))),
        ('m_after', imp(at(all_of(answer, is_(1), low(taken))), seq(lead(1, 1, at(is_(0)))))),
        ('m_then', imp(then(at(answer), at(low(answer))), now(fill(lambda n: n <= 4)))),
        ('m_two', nxt(('repeat', at(taken), 2, 2), now(some))),
        ('m_one', nxt(('repeat', at(taken), 1, 1), now(some))),
        ('m_three', imp(then(('repeat', at(taken), 3, 3), at(low(answer))), now(fill(lambda n: n > 1)))),
        ('m_if', choice(answer, now(some), ('sequence', ('boolean', TRUE)))),
        ('m_ifs', choice(taken, seq(lead(1, 1, at(some))), seq(lead(1, 1, at(fill(lambda n: n <= 4)))))),
        ('m_nested', imp(at(taken), nxt(at(low(answer)), now(some)))),
        ('m_chain', nxt(at(answer), seq(('and', ('or', at(under), at(ready)), at(fill(lambda n: n != 7)))))),
        ('m_either', nxt(('or', at(answer), at(taken)),
                         seq(then(('boolean', TRUE), at(fill(lambda n: n <= 5)), 0, 0)))),
        ('m_quiet', imp(then(at(low(ask)), at(low(ask))), now(lambda k: t('pending', k) <= t('pending', k, 1)))),
        ('m_always', imp(at(all_of(answer, full)), ('always', 1, 1, now(fill(lambda n: n >= 3))))),
        ('m_counts', seq(lead(1, 1, at(up(t, 'clocks', 1, 256))))),
        ('m_noise', now(lambda k: t('noise', k) >> 1 or t('noise', k) & 1)),
        ('m_bits', now(lambda k: True)),
        ('m_onehot', seq(('or', at(lambda k: ones(k) <= 1), at(is_(0))))),
        ('m_part', now(lambda k: True)),
        ('m_parts', now(lambda k: True)),
        ('m_shift', seq(lead(1, 1, at(lambda k: t('noise', k) >> 1 == t('noise', k, 1) & 0x7fff)))),
        ('m_pairs', imp(at(all_of(past(taken, 2), past(taken))), now(some))),
    ]


def fifo_arb(t):
    push, pop, full, empty = names(t, 'push', 'pop', 'full', 'empty')
    puts, takes = all_of(push, low(full)), all_of(pop, low(empty))
    puts_alone, takes_alone = all_of(puts, low(takes)), all_of(takes, low(puts))
    bit = lambda word, place: lambda k: t(word, k) >> place & 1
    level = lambda test: lambda k: test(t('level', k))
    gnt, req = t.is_one('gnt'), t.is_one('req')
    served = lambda n: imp(at(rose(bit('req', n))), seq(lead(0, 60, at(all_of(push, bit('gnt', n))))))
    first = all_of(push, bit('gnt', 0))
    full_alone = lambda k: t('req', k, 1) >> 1 == 0 or full(k) or past(full)(k)
    rest = choice(level(lambda n: n == 8), now(full), now(all_of(low(full), low(empty))))
    return [
        ('a_onehot', now(lambda k: bin(t('gnt', k)).count('1') <= 1)),
        ('a_asked', imp(at(push), now(lambda k: t('gnt', k) & t('req', k)))),
        ('a_none', imp(at(low(req)), now(low(gnt)))),
        ('a_some', imp(at(req), now(gnt))),
        *((f'a_served_{n}', served(n)) for n in range(4)),
        ('a_held', nxt(at(all_of(push, lambda k: t('req', k) & ~t('gnt', k) & 15)), now(req))),
        ('a_pushes', imp(at(push), now(gnt))),
        ('a_not_two', ('not', now(all_of(bit('gnt', 0), bit('gnt', 1))))),
        ('a_three', ('not', now(lambda k: t('gnt', k) & 12 == 12 or t('gnt', k) & 6 == 6))),
        ('a_stays', nxt(at(all_of(bit('gnt', 0), low(push))), now(bit('req', 0)))),
        ('a_moves', imp(then(at(first), at(first)), now(full_alone))),
        ('f_up', nxt(at(puts_alone), now(up(t, 'level', 1, 16)))),
        ('f_same', nxt(at(all_of(puts, takes)), now(stable(t, 'level')))),
        ('f_full', now(lambda k: t('full', k) == (t('level', k) == 8))),
        ('f_empty', now(lambda k: t('empty', k) == (t('level', k) == 0))),
        ('f_range', now(level(lambda n: n <= 8))),
        ('f_width', now(lambda k: True)),
        ('f_not_both', ('not', now(all_of(full, empty)))),
        ('f_fills', nxt(then(at(empty), ('repeat', at(puts_alone), 8, 8)), now(full))),
        ('f_almost', nxt(then(at(level(lambda n: n == 7)), at(puts_alone), 0, 0), now(full))),
        ('f_full_on', nxt(at(all_of(full, low(pop))), now(full))),
        ('f_full_two', nxt(then(at(all_of(full, low(pop))), at(low(pop))),
                           seq(('throughout', ('test', full), at(level(lambda n: n == 8)))))),
        ('f_leaves', imp(at(fell(full)), now(past(pop)))),
        ('f_comes', imp(at(rose(full)), now(past(push)))),
        ('f_until', imp(at(rose(empty)), ('until_with', now(empty), now(push)))),
        ('f_next', imp(at(all_of(empty, low(push))), ('next', 1, now(empty)))),
        ('f_two', imp(then(at(all_of(empty, low(push))), at(low(push))), ('next', 1, now(empty)))),
        ('f_first', imp(at(rose(full)), seq(('or', lead(0, 40, at(low(full))), at(pop))))),
        ('f_case', choice(level(lambda n: n == 0), now(empty), rest)),
        ('f_if', choice(puts, seq(lead(1, 1, at(low(empty)))), ('sequence', ('boolean', TRUE)))),
        ('f_nested', imp(at(full), nxt(at(pop), now(lambda k: not full(k) or past(push)(k))))),
        ('f_or', nxt(at(all_of(full, pop)), seq(('or', at(low(full)), at(push))))),
        ('f_pops', nxt(at(takes), now(lambda k: t('level', k) <= 7 or past(push)(k)))),
        ('f_pairs', imp(at(all_of(past(puts, 2), past(puts))), now(t.is_one('level')))),
        ('f_inside', now(level(lambda n: n <= 8))),
        ('f_settles', ('always', 0, 1, now(level(lambda n: n <= 8)))),
        ('f_quiet', nxt(at(all_of(low(push), low(pop))), now(stable(t, 'level', 'full')))),
        ('f_no_push', imp(then(at(takes_alone), at(low(pop))), now(low(full)))),
    ]


FILES = {'handshake': handshake, 'outstanding': outstanding, 'fifo_arb': fifo_arb}


def kind_of(model, tree, disable, start):
    """What an attempt comes to, and its clock."""
    kind, clock = model.verdict(tree, disable, start)
    if kind == 'good':
        return ('holds' if model.asks(tree, start) else 'vacuous'), clock
    return kind, clock


def report_on(rows, t, assertions):
    model, disable = Model(rows), ('test', t.low('rst_n'))
    lines, sums = ['svamon 1', f'clocks {len(rows)}'], dict.fromkeys(KINDS, 0)
    for name, tree in assertions:
        model.known.clear()
        verdicts = [kind_of(model, tree, disable, start) for start in range(len(rows))]
        counts = {kind: sum(1 for one, _ in verdicts if one == kind) for kind in KINDS}
        sums = {kind: sums[kind] + counts[kind] for kind in KINDS}
        lines.append(f'monitor {name} ' + ' '.join(f'{kind} {counts[kind]}' for kind in KINDS))
        fails = sorted((clock, start) for start, (kind, clock) in enumerate(verdicts) if kind == 'fails')
        lines += [f'fail {name} start {start} clock {clock}' for clock, start in fails]
    lines.append('total ' + ' '.join(f'{kind} {sums[kind]}' for kind in KINDS))
    return '\n'.join(lines) + '\n'


def main():
    for name, trees in FILES.items():
        folder = HERE / 'data' / name
        rows = read_dump(folder / 'dump.vcd', 'tb.clk')
        t = Trace(rows)
        compare(folder / 'checks.txt', report_on(rows, t, trees(t)), sys.argv[1:] == ['write'])


if __name__ == '__main__':
    main()
