#!/usr/bin/env python3
"""Writes one dump of an unusual shape to standard output: plain, variables, nested, reopened, siblings, digits, token,
steps."""
import sys

MEGABYTE = 1_000_000


def header(variables, inside=''):
    return inside + ''.join(f'$var wire {size} {code} {name} $end\n'
                            for size, code, name in variables) + '$enddefinitions $end\n'


def code(n):
    """The n-th code of printable characters, the short ones first."""
    text = ''
    n += 1
    while n:
        n, digit = divmod(n - 1, 94)
        text += chr(33 + digit)
    return text


def plain():
    out = [header([(1, code(n), f's{n}') for n in range(60)])]
    out += [f'#{t}\n' + ''.join(f'{(t + n) % 2}{code(n)}\n' for n in range(60)) for t in range(90_000)]
    return ''.join(out)


def variables():
    out = [header([(1, code(n), f's{n}') for n in range(200_000)])]
    out += [f'#{t}\n' + ''.join(f'{t % 2}{code(n)}\n' for n in range(200_000)) for t in range(4)]
    return ''.join(out)


def scopes_inside():
    return ''.join(f'$scope module m{n} $end\n$var wire 1 {code(n)} s $end\n' for n in range(10_000))


def nested():
    return scopes_inside() + '$enddefinitions $end\n#0\n'


def reopened():
    """The same nested scopes twice, so that each path is there twice."""
    return scopes_inside() + '$upscope $end\n' * 10_000 + scopes_inside() + '$enddefinitions $end\n#0\n'


def siblings():
    scopes = ''.join(f'$scope module m{n} $end\n$var wire 1 {code(n)} s $end\n$upscope $end\n' for n in range(10_000))
    return scopes + '$enddefinitions $end\n#0\n'


def digits():
    return header([(128, '!', 's')]) + '#0\nb' + '10' * (5 * MEGABYTE) + ' !\n'


def token():
    return '$comment ' + 'x' * (10 * MEGABYTE) + ' $end\n' + header([(1, '!', 's')]) + '#0\n1!\n'


def steps():
    return header([(1, '!', 's')]) + ''.join(f'#{t}\n' for t in range(1_000_000))


sys.stdout.write({f.__name__: f
                  for f in (plain, variables, nested, reopened, siblings, digits, token, steps)}[sys.argv[1]]())
