"""What a property of the standard comes to (IEEE 1800-2017, 16.12 and annex F.5), straight from its tree (imported).

A tree is a tuple whose first word is its form. An attempt that began at a clock is looked at after each number of ticks
seen: it has failed where it isn't satisfied if every boolean is true from then on, and is good where it is satisfied if
every boolean is false from then on. This shares nothing with any rewriting: each form is what the annex says of it.
"""

FAR = 48


def values_of(boolean, rows):
    """Whether a boolean is true at each clock."""
    kind = boolean[0]
    if kind == 'signal':
        return [row[boolean[1]] != 0 for row in rows]
    if kind == 'constant':
        return [boolean[1] != 0 for _ in rows]
    if kind == 'test':  # a Python function of the clock
        return [bool(boolean[1](clock)) for clock in range(len(rows))]
    parts = [values_of(part, rows) for part in boolean[1:] if isinstance(part, tuple)]
    if kind == 'no':
        return [not one for one in parts[0]]
    if kind == 'both':
        return [one and other for one, other in zip(*parts)]
    if kind == 'any':
        return [one or other for one, other in zip(*parts)]
    assert kind == 'past'
    back = boolean[1]
    return [parts[0][clock - back] if clock >= back else False for clock in range(len(rows))]


class Model:
    """A property over rows. Ticks count from 0; `seen` is how many were seen, `top` what a boolean is after them."""

    def __init__(self, rows):
        self.rows, self.known, self.truths, self.kept = rows, {}, {}, []
        self.last = len(rows) + FAR

    def truth(self, boolean, tick, seen, top):
        if tick >= seen:
            return top
        if boolean not in self.truths:
            self.truths[boolean] = values_of(boolean, self.rows)
        return self.truths[boolean][tick]

    def ends(self, sequence, start, seen, top):
        """The ticks after all matches from a tick on: the tick itself for an empty match (annex F.5.1)."""
        key = (sequence, start, seen, top)
        if key not in self.known:
            # where every boolean is false, so is the 1 of a delay's ticks: no match goes on after those that were seen
            last = self.last if top else seen
            found = self.ends_of(sequence, start, seen, top) if start <= last else ()
            self.known[key] = frozenset(end for end in found if end <= last)
        return self.known[key]

    def ends_of(self, sequence, start, seen, top):
        kind = sequence[0]
        ends = lambda part, tick: self.ends(part, tick, seen, top)
        if kind == 'boolean':
            return frozenset([start + 1]) if self.truth(sequence[1], start, seen, top) else frozenset()
        if kind == 'delay':
            _, first, least, most, second = sequence
            return frozenset().union(*(self.joined(first, gap, second, start, seen, top)
                                       for gap in range(least, self.most(most, start) + 1)))
        if kind == 'lead':
            _, least, most, body = sequence
            return frozenset().union(*(ends(body, start + gap) for gap in range(least, self.most(most, start) + 1)))
        if kind == 'repeat':
            return self.repeated(sequence, start, seen, top)
        if kind == 'goto':
            _, boolean, least, most = sequence
            return ends(('repeat', occurrence(boolean), least, most), start)
        if kind == 'nonconsecutive':
            _, boolean, least, most = sequence
            after = ('repeat', ('boolean', ('no', boolean)), 0, None)
            return ends(('delay', ('goto', boolean, least, most), 1, 1, after), start)
        if kind == 'or':
            return ends(sequence[1], start) | ends(sequence[2], start)
        if kind == 'and':
            return frozenset(max(one, other) for one in ends(sequence[1], start) for other in ends(sequence[2], start))
        if kind == 'intersect':
            return ends(sequence[1], start) & ends(sequence[2], start)
        if kind == 'within':
            fits = lambda end: any(inner <= end for tick in range(start, end + 1) for inner in ends(sequence[1], tick))
            return frozenset(end for end in ends(sequence[2], start) if fits(end))
        if kind == 'throughout':
            return frozenset(end for end in ends(sequence[2], start)
                             if all(self.truth(sequence[1], tick, seen, top) for tick in range(start, end)))
        assert kind == 'first'
        return frozenset(sorted(ends(sequence[1], start))[:1])

    def most(self, most, start):
        return self.last - start if most is None else most

    def joined(self, first, gap, second, start, seen, top):
        """The matches of `first ##gap second`; at `##0` both share a tick, and neither may be empty."""
        found = frozenset()
        for end in self.ends(first, start, seen, top):
            if gap:
                found |= self.ends(second, end + gap - 1, seen, top)
            elif end > start:
                found |= frozenset(last for last in self.ends(second, end - 1, seen, top) if last > end - 1)
        return found

    def repeated(self, sequence, start, seen, top):
        _, body, least, most = sequence
        now, found, count = frozenset([start]), frozenset([start]) if least == 0 else frozenset(), 0
        while now and count < (self.last if most is None else most):
            count += 1
            after = frozenset().union(*(self.ends(body, tick, seen, top) for tick in now))
            after = frozenset(tick for tick in after if tick <= self.last)
            if count > least and after <= found:
                break
            now = after
            if count >= least:
                found |= now
        return found

    def satisfied(self, tree, tick, seen, top):
        """Whether a property holds from a tick on (annex F.5.3). All ticks that weren't seen are alike."""
        tick = min(tick, seen)
        key = ('property', tree, tick, seen, top)
        if key not in self.known:
            self.known[key] = self.satisfies(tree, tick, seen, top)
        return self.known[key]

    def satisfies(self, tree, tick, seen, top):
        kind = tree[0]
        holds = lambda part, later=tick: self.satisfied(part, later, seen, top)
        if kind == 'sequence':
            return any(end > tick for end in self.ends(tree[1], tick, seen, top))
        if kind == 'not':
            return not self.satisfied(tree[1], tick, seen, not top)
        if kind == 'and':
            return holds(tree[1]) and holds(tree[2])
        if kind == 'or':
            return holds(tree[1]) or holds(tree[2])
        if kind == 'implication':
            ends = self.ends(tree[1], tick, seen, not top)
            return all(holds(tree[2], end - 1) for end in ends if end > tick)
        if kind == 'next':
            return holds(tree[2], tick + tree[1])
        if kind == 'always':
            return all(holds(tree[3], tick + later) for later in range(tree[1], tree[2] + 1))
        if kind == 'eventually':
            last = max(seen - tick, 0) if tree[2] is None else tree[2]
            return any(holds(tree[3], tick + later) for later in range(tree[1], last + 1))
        if kind == 'until':
            return self.waits(tree[1], tree[2], tick, seen, top, False)
        if kind == 'until_with':
            return self.waits(tree[1], tree[2], tick, seen, top, True)
        return holds(derived(tree))

    def waits(self, kept, ended, tick, seen, top, together):
        """`kept until ended`, weak; where both are asked for at the last tick, `until_with` (F.5.3.2)."""
        for now in range(tick, seen + 1):
            keeps = self.satisfied(kept, now, seen, top)
            ends = self.satisfied(ended, now, seen, top)
            if ends and (keeps or not together):
                return True
            if not keeps:
                return False
        return True

    def asks(self, tree, tick):
        """Whether a good property isn't vacuous from a tick on, over the whole trace (16.14.8)."""
        kind, last = tree[0], len(self.rows)
        if tick >= last or kind in ('sequence', 'until', 'until_with'):
            return True
        if kind == 'not':
            return self.asks(tree[1], tick)
        if kind in ('and', 'or'):
            return self.asks(tree[1], tick) or self.asks(tree[2], tick)
        if kind == 'implication':
            ends = self.ends(tree[1], tick, last, False)
            return any(self.asks(tree[2], end - 1) for end in ends if end > tick)
        if kind == 'next':
            return self.asks(tree[2], tick + tree[1])
        if kind in ('always', 'eventually'):
            most = last - tick if tree[2] is None else tree[2]
            return any(self.asks(tree[3], tick + later) for later in range(tree[1], most + 1))
        if kind == 'implies':
            return self.satisfied(tree[1], tick, last, False) and self.asks(tree[1], tick) and self.asks(tree[2], tick)
        if kind == 'iff':
            return self.asks(tree[1], tick) or self.asks(tree[2], tick)
        return self.asks(derived(tree), tick)

    def outcome(self, tree, start, seen):
        if not self.satisfied(tree, start, seen, True):
            return 'fails'
        return 'good' if self.satisfied(tree, start, seen, False) else None

    def verdict(self, tree, disable, start):
        """The kind and the clock of what the attempt that begins at a clock comes to."""
        for clock in range(start, len(self.rows)):
            if disable is not None and self.truth(disable, clock, len(self.rows), False):
                return 'disabled', clock
            kind = self.outcome(tree, start, clock + 1)
            if kind:
                return kind, clock
        return 'open', None


def occurrence(boolean):
    """The next tick at which a boolean is true (16.9.2)."""
    return ('delay', ('repeat', ('boolean', ('no', boolean)), 0, None), 1, 1, ('boolean', boolean))


def derived(tree):
    """A property as others say it (annex F.3.4)."""
    kind = tree[0]
    if kind == 'next_implication':
        return ('implication', ('delay', tree[1], 1, 1, ('boolean', ('constant', 1))), tree[2])
    if kind == 'followed':
        return ('not', ('implication', tree[1], ('not', tree[2])))
    if kind == 'next_followed':
        return ('not', ('next_implication', tree[1], ('not', tree[2])))
    if kind == 'if':
        return ('implication', ('boolean', tree[1]), tree[2])
    if kind == 'if_else':
        return ('and', ('if', tree[1], tree[2]), ('if', ('no', tree[1]), tree[3]))
    if kind == 'implies':
        return ('or', ('not', tree[1]), tree[2])
    assert kind == 'iff'
    return ('and', ('implies', tree[1], tree[2]), ('implies', tree[2], tree[1]))
