"""What an expression of the standard is worth (IEEE 1800-2017, 11.4 to 11.8), straight from its tree (imported).

A tree is a tuple whose first word is its form. All names are unsigned, and x and z are 0. ('cast', w, e) is e as one of
w bits, and ('held', n, w, e) what a variable of w bits was given n clocks ago. A width is had from below,
and handed down to the operands that take that of their context (11.6). Before the first clock each value is 0.
"""

UNSIGNED = ('name', 'sized', 'fill', 'concat', 'copies', 'bits', 'part', 'index', 'reduce', 'lacks', 'compare', 'both',
            'any', 'inside', 'wild', 'onehot', 'rose', 'fell', 'stable', 'cast', 'held')
COMPARE = {'==': lambda a, b: a == b, '!=': lambda a, b: a != b, '<': lambda a, b: a < b, '<=': lambda a, b: a <= b,
           '>': lambda a, b: a > b, '>=': lambda a, b: a >= b}
COMPARE |= {'===': COMPARE['=='], '!==': COMPARE['!=']}
INFIX = {'+': lambda a, b: a + b, '-': lambda a, b: a - b, '&': lambda a, b: a & b, '|': lambda a, b: a | b,
         '^': lambda a, b: a ^ b, '~^': lambda a, b: ~(a ^ b)}


def is_unsigned(tree):
    """Whether an expression has no sign (11.8.1)."""
    kind = tree[0]
    if kind in UNSIGNED:
        return True
    if kind in ('flip', 'minus', 'past'):
        return is_unsigned(tree[-1])
    if kind == 'shift':
        return is_unsigned(tree[2])
    if kind in ('infix', 'choice'):
        return is_unsigned(tree[-1]) or is_unsigned(tree[-2])
    return False


def width_of(tree, widths):
    """How many bits an expression has by itself (table 11-21)."""
    kind = tree[0]
    if kind == 'name':
        return widths[tree[1]]
    if kind in ('number', 'count'):
        return 32
    if kind in ('sized', 'cast'):
        return tree[1]
    if kind == 'held':
        return tree[2]
    if kind in ('flip', 'minus', 'past'):
        return width_of(tree[-1], widths)
    if kind == 'shift':
        return width_of(tree[2], widths)
    if kind in ('infix', 'choice'):
        return max(width_of(tree[-1], widths), width_of(tree[-2], widths))
    if kind == 'concat':
        return sum(width_of(part, widths) for part in tree[1])
    if kind == 'copies':
        return tree[1] * width_of(tree[2], widths)
    if kind == 'bits':
        return tree[2] - tree[3] + 1
    return tree[3] if kind == 'part' else 1


class Values:
    """Expressions over rows, with the widths of their names."""

    def __init__(self, rows, widths):
        self.rows, self.widths = rows, widths

    def alone(self, tree, clock):
        return self.value(tree, clock, width_of(tree, self.widths))

    def value(self, tree, clock, width):
        """The value in a context of that many bits, at a clock."""
        kind, mask = tree[0], (1 << width) - 1
        if kind == 'infix':
            return INFIX[tree[1]](self.value(tree[2], clock, width), self.value(tree[3], clock, width)) & mask
        if kind == 'flip':
            return ~self.value(tree[1], clock, width) & mask
        if kind == 'minus':
            return -self.value(tree[1], clock, width) & mask
        if kind == 'shift':
            value, count = self.value(tree[2], clock, width), self.alone(tree[3], clock)
            return value >> count if '>' in tree[1] else value << min(count, width) & mask
        if kind == 'choice':
            return self.value(tree[2] if self.alone(tree[1], clock) else tree[3], clock, width)
        if kind == 'fill':
            return mask if tree[1] else 0
        return int(self.own(tree, clock))

    def sides(self, first, second, clock):
        width = max(width_of(first, self.widths), width_of(second, self.widths))
        return self.value(first, clock, width), self.value(second, clock, width)

    def joined(self, parts, clock):
        value = 0
        for part in parts:
            value = value << width_of(part, self.widths) | self.alone(part, clock)
        return value

    def own(self, tree, clock):
        """The value of what takes no width from its context."""
        kind = tree[0]
        if kind == 'name':
            return self.rows[clock][tree[1]]
        if kind in ('number', 'sized'):
            return tree[-1]
        if kind == 'concat':
            return self.joined(tree[1], clock)
        if kind == 'copies':
            return self.joined([tree[2]] * tree[1], clock)
        if kind == 'bits':
            return self.rows[clock][tree[1]] >> tree[3] & (1 << tree[2] - tree[3] + 1) - 1
        if kind == 'part':
            return self.rows[clock][tree[1]] >> tree[2] & (1 << tree[3]) - 1
        if kind == 'index':
            return self.rows[clock][tree[1]] >> self.alone(tree[2], clock) & 1
        if kind == 'compare':
            return COMPARE[tree[1]](*self.sides(tree[2], tree[3], clock))
        if kind == 'both':
            return bool(self.alone(tree[1], clock)) and bool(self.alone(tree[2], clock))
        if kind == 'any':
            return bool(self.alone(tree[1], clock)) or bool(self.alone(tree[2], clock))
        if kind == 'lacks':
            return not self.alone(tree[1], clock)
        return self.called(tree, clock)

    def called(self, tree, clock):
        """The value of a reduction, a set or a system function."""
        kind = tree[0]
        if kind == 'inside':
            return any(self.is_in(tree[1], item, clock) for item in tree[2])
        if kind == 'wild':
            width = max(width_of(tree[1], self.widths), len(tree[2]))
            bits = bin(self.value(tree[1], clock, width))[2:].zfill(width)
            return all(bit in ('?', own) for bit, own in zip(tree[2].rjust(width, '0'), bits))
        if kind == 'past':
            return self.alone(tree[2], clock - tree[1]) if clock >= tree[1] else 0
        if kind == 'cast':
            return self.alone(tree[2], clock) & (1 << tree[1]) - 1
        if kind == 'held':
            return self.assigned(tree[3], clock - tree[1], tree[2])
        if kind in ('rose', 'fell', 'stable'):
            now, before = self.rows[clock][tree[1]], self.rows[clock - 1][tree[1]] if clock else 0
            if kind == 'stable':
                return now == before
            return now & ~before & 1 if kind == 'rose' else ~now & before & 1
        value, width = self.alone(tree[-1], clock), width_of(tree[-1], self.widths)
        ones = bin(value).count('1')
        if kind == 'count':
            return ones
        if kind == 'onehot':
            return ones == 1 if tree[1] else ones <= 1
        return {'&': ones == width, '|': ones > 0, '^': ones % 2, '~&': ones < width, '~|': ones == 0,
                '~^': 1 - ones % 2}[tree[1]]

    def assigned(self, tree, clock, width):
        """What a variable of that many bits holds after an assignment at a clock (10.7)."""
        return self.value(tree, clock, max(width_of(tree, self.widths), width)) & (1 << width) - 1

    def is_in(self, tree, item, clock):
        """Whether a value is a member of a set, which is a value or a range (11.4.13)."""
        if item[0] != 'range':
            first, second = self.sides(tree, item, clock)
            return first == second
        low, own = self.sides(item[1], tree, clock)
        other, high = self.sides(tree, item[2], clock)
        return low <= own and other <= high
