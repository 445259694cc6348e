#!/usr/bin/env python3
"""Says of each text of the assertion language whether it is a file of the profile, or else which fault it has and at
which byte. It is an Earley recogniser over the grammar as it is written down for users (docs/DEFINITIONS.md), so it
takes nothing from the program's parser: a text's fault stands at the first token after which no file of the grammar
goes on.

    scripts/models/reference_parser.py TEXTS           a verdict for each line of the file
    scripts/models/reference_parser.py --make FOLDER   writes FOLDER/data/texts.txt, and `texts` of FOLDER/stdout
"""
import random
import re
import sys

from stored_parts import read_part, write_part

TOKEN = re.compile(r'''\s+|//.*|/\*.*?\*/|(?P<word>[A-Za-z_][A-Za-z0-9_$]*)|(?P<system>\$[A-Za-z0-9_]*)
    |(?P<number>[0-9][0-9_]*'[bodhBODH][0-9a-fA-F_]+|'[bodhBODH][0-9a-fA-F_]+|[0-9][0-9_]*)
    |(?P<symbol>\|->|\|=>|\[\*|\#\#|<<|>>|<=|>=|==|!=|&&|\|\||~&|~\||~\^|\^~|[(){}\[\],;:?@.\#+\-<>&|^~!=*/%])''', re.X)
KEYWORDS = set('sequence endsequence assert assume property posedge disable iff or and intersect throughout'.split())
FOREIGN = set('''within first_match strong weak not if else case always nexttime eventually until s_always s_nexttime
    s_eventually s_until s_until_with until_with implies accept_on reject_on cover restrict default clocking negedge
    edge local'''.split())
FUNCTIONS = set('$rose $fell $stable $changed $onehot $onehot0'.split())
LEVELS = [['||'], ['&&'], ['|'], ['^', '~^', '^~'], ['&'], ['==', '!='], ['<', '<=', '>', '>='], ['<<', '>>'],
          ['+', '-']]
UNARY = '! ~ & ~& | ~| ^ ~^ ^~'.split()
MOST = 64


def tokens_of(text):
    found, at = [], 0
    while at < len(text):
        match = TOKEN.match(text, at)
        assert match, (text, at)
        if match.lastgroup:
            found.append((match.lastgroup, match.group(), at))
        at = match.end()
    return found + [('end', '', len(text))]


# Terminals: a text in quotes stands for itself; others are classes.
def is_terminal(symbol):
    return isinstance(symbol, str)


def passes(terminal, token):
    kind, text, _ = token
    if terminal == 'NAME':
        return kind == 'word' and text not in KEYWORDS and text not in FOREIGN
    if terminal == 'WORD':
        return kind == 'word'
    if terminal == 'NUMBER':
        return kind == 'number'
    if terminal == 'FUNCTION':
        return kind == 'system' and text in FUNCTIONS
    if terminal == 'END':
        return kind == 'end'
    if terminal.startswith('BOUND'):
        low, high = map(int, terminal[5:].split('-'))
        return kind == 'number' and text.replace('_', '').isdigit() and low <= int(text.replace('_', '')) <= high
    if terminal.startswith('AGAIN '):
        return kind == 'word' and text == terminal[6:]
    return kind in ('word', 'system', 'symbol') and text == terminal


def less(depth):
    return None if depth is None else depth - 1


def rules(symbol):
    """The right sides of a nonterminal: a name, the depth that is left (None: any), and what it needs besides."""
    name, depth = symbol[0], symbol[1]
    inner = less(depth)
    deep = depth is None or depth > 0
    n = lambda which, d=depth: (which, d)
    if name == 'file':
        return [[n('items'), 'END']]
    if name == 'items':  # at least one assertion
        return [[n('plain'), n('items')], [n('assertion'), n('rest')]]
    if name == 'rest':
        return [[], [n('plain'), n('rest')], [n('assertion'), n('rest')]]
    if name == 'plain':
        return [[n('counter')], [n('sequence')]]
    if name == 'counter':
        return [['counter', 'NAME', '[', 'BOUND1-128', ']', n('clear'), n('load'), n('add'), n('sub'), ';']]
    if name == 'clear':
        return [[], ['clear', '(', n('expr', inner), ')']]
    if name in ('load', 'add', 'sub'):
        return [[], [name, '(', n('expr', inner), ',', n('expr', inner), ')']]
    if name == 'sequence':
        return [['sequence', word, ';', n('seq'), *semicolon, 'endsequence', *closing] for word, closings in NAMES
                for semicolon in ([], [';']) for closing in closings]
    if name == 'assertion':
        return [[*label, verb, 'property', '(', '@', '(', 'posedge', n('path'), ')', *disable, n('prop', inner), ')',
                 ';']
                for label in ([], ['NAME', ':']) for verb in ('assert', 'assume')
                for disable in ([], ['disable', 'iff', '(', n('expr', less(inner)), ')'])]
    if name == 'prop':
        brackets = [['(', n('prop', inner), ')']] if deep else []
        first = [['first_match', '(', n('seq', inner), ')', arrow, n('seq')]
                 for arrow in ('|->', '|=>')] if deep else [['first_match', 'NEVER']]
        return brackets + first + [[n('seq')], [n('seq'), '|->', n('seq')], [n('seq'), '|=>', n('seq')]]
    if name == 'seq':
        return [[n('and_seq')], [n('seq'), 'or', n('and_seq')]]
    if name == 'and_seq':
        return [[n('int')], [n('and_seq'), 'and', n('int')]]
    if name == 'int':
        return [[n('thr')], [n('int'), 'intersect', n('thr')]]
    if name == 'thr':
        return [[n('cat')]] + ([[n('expr'), 'throughout', n('thr', inner)]] if deep else [])
    if name == 'cat':
        return [[n('rep')], [n('delay'), n('rep')], [n('cat'), n('delay'), n('rep')]]
    if name == 'delay':
        return [['##', 'BOUND0-127']] + ([['##', '[', n('range'), ']']] if deep else [])
    if name == 'range':
        return [[f'BOUND{low}-{low}', ':', f'BOUND{low}-127'] for low in range(128)]
    if name == 'counts':
        return [['BOUND0-127'], [n('range')]]
    if name == 'rep':
        return [[n('body')]] + ([[n('body'), '[*', n('counts'), ']']] if deep else [])
    if name == 'body':
        return [[n('expr')]] + ([['(', n('seq', inner), ')']] if deep else [])
    if name == 'path':
        return [['NAME'], [n('path'), '.', 'WORD']]
    if name == 'expr':
        return [[('level', depth, 0)]] + ([[('level', depth, 0), '?', n('expr', inner), ':', n('expr', inner)]] if deep
                                          else [])
    if name == 'level':
        if symbol[2] == len(LEVELS):
            return [[n('unary')]]
        tighter = ('level', depth, symbol[2] + 1)
        return [[tighter]] + [[symbol, operator, tighter] for operator in LEVELS[symbol[2]]]
    if name == 'unary':
        return [[n('primary')]] + ([[operator, n('unary', inner)] for operator in UNARY] if deep else [])
    if name == 'primary':
        if not deep:
            # it is the bracket that is too deep
            return [['NUMBER'], [n('path')], ['$past', 'NEVER'], ['FUNCTION', 'NEVER']]
        return [['NUMBER'], [n('path')], [n('path'), '[', 'NUMBER', ']'],
                [n('path'), '[', 'NUMBER', ':', 'NUMBER', ']'],
                ['{', n('parts', inner), '}'], ['(', n('expr', inner), ')'], ['$past', '(', n('expr', inner), ')'],
                ['$past', '(', n('expr', inner), ',', 'BOUND1-64', ')'], ['FUNCTION', '(', n('expr', inner), ')']]
    if name == 'parts':
        return [[n('expr')], [n('parts'), ',', n('expr')]]
    raise AssertionError(name)


NAMES = []


def names_for(tokens):
    """A sequence's closing name is its own: one rule for each word that stands after `sequence`."""
    words = {text for (_, before, _), (kind, text, at) in zip(tokens, tokens[1:]) if before == 'sequence'
             and passes('NAME', (kind, text, at))}
    NAMES[:] = [(f'AGAIN {word}', ([], [':', f'AGAIN {word}'])) for word in sorted(words)] + [('NAME', ([],))]


CACHE = {}


def rules_of(symbol):
    if symbol[0] == 'sequence':
        return rules(symbol)
    if symbol not in CACHE:
        CACHE[symbol] = rules(symbol)
    return CACHE[symbol]


def first_refused(tokens, depth):
    """The first token that nothing goes on with, and the terminals that would go on there; None where all are read."""
    start = ('start', depth)
    sets = [dict()]
    chart = [set()]
    waiting = [dict()]

    def close(position, items):
        seen, by_symbol, done = set(items), {}, {}
        work = list(items)
        while work:
            left, right, dot, origin = item = work.pop()
            if dot < len(right):
                symbol = right[dot]
                if is_terminal(symbol):
                    continue
                first = symbol not in by_symbol
                by_symbol.setdefault(symbol, []).append(item)
                if first:
                    for option in rules_of(symbol):
                        new = (symbol, tuple(option), 0, position)
                        if new not in seen:
                            seen.add(new)
                            work.append(new)
                if symbol in done:
                    new = (left, right, dot + 1, origin)
                    if new not in seen:
                        seen.add(new)
                        work.append(new)
            else:
                if origin == position:
                    done[left] = True
                    waiters = list(by_symbol.get(left, []))
                else:
                    waiters = waiting[origin].get(left, [])
                for (l, r, d, o) in waiters:
                    new = (l, r, d + 1, o)
                    if new not in seen:
                        seen.add(new)
                        work.append(new)
        return seen, by_symbol

    items = [(start, (('file', depth),), 0, 0)]
    for position, token in enumerate(tokens):
        seen, by_symbol = close(position, items)
        if position == 0:
            waiting[0] = by_symbol
        else:
            waiting.append(by_symbol)
        wanted = {i[1][i[2]] for i in seen if i[2] < len(i[1]) and is_terminal(i[1][i[2]])}
        items = [(l, r, d + 1, o) for (l, r, d, o) in seen if d < len(r) and is_terminal(r[d]) and passes(r[d], token)]
        if not items:
            return position, wanted
    return None


def verdict(text):
    tokens = tokens_of(text)
    names_for(tokens)
    refused = first_refused(tokens, MOST)
    if refused is None:
        return 'read'
    position, wanted = refused
    kind, word, at = tokens[position]
    free = first_refused(tokens, None)
    if free is None or free[0] > position:
        return f'P3 TooDeep {at}'
    if kind == 'number' and any(w.startswith('BOUND') for w in wanted):
        return f'P4 BadBound {at}'
    if outside(tokens, position):
        return f'P2 OutsideProfile {word} {at}'
    return f'P1 Expected {at}'


def outside(tokens, position):
    kind, word, _ = tokens[position]
    if kind == 'word':
        return word in FOREIGN or word == 'iff' or (word == 'property' and begins_item(tokens, position))
    if kind == 'system':
        return word not in FUNCTIONS and word != '$past'
    if word in ('*', '/', '%'):
        return True
    if word in ('|->', '|=>'):
        return any(w in ('|->', '|=>') for _, w, _ in tokens[item_start(tokens, position):position])
    return False


def item_start(tokens, position):
    """Where the item of the token begins: after the last item that ends before it."""
    start, i = 0, 0
    while i < position:
        if tokens[start][1] == 'sequence' and start == i:
            while i < position and tokens[i][1] != 'endsequence':
                i += 1
            i += 1
            if i < position and tokens[i][1] == ':':
                i += 2
            start = i
            continue
        if tokens[i][1] == ';':
            start = i + 1
        i += 1
    return start


def begins_item(tokens, position):
    return item_start(tokens, position) == position


BASES = [
    'assert property (@(posedge clk) a);',
    'r: assume property (@(posedge top.clk) disable iff (!rst) req |-> ##[1:4] gnt);',
    'counter c [8] clear(rst) load(ld, v) add(en, 1) sub(dn, 2); assert property (@(posedge clk) c == 3 |=> done);',
    'sequence s; a ##1 b[*2:3] or c; endsequence : s assert property (@(posedge clk) s |-> s[*2] ##0 d);',
    'counter: assert property (@(posedge clk) (a ##1 b) and (c throughout (d ##2 e)) |-> x[3:0] == 4\'hA);',
    'assert property (@(posedge clk) ((a |-> b)));',
    'assert property (@(posedge clk) {a, b[1], 2\'b01} != $past(v, 2) ? p + q << 1 : ~|r |-> ##1 (s[*0:1] ##1 t));',
    'sequence go; ##1 x; endsequence clear: assert property (@(posedge clk) $rose(a) && $onehot0({b, c}) '
    '|=> go and !(d ^ e));',
    'assert property (@(posedge clk) (a) ##1 (b ##1 c)[*2] or d & e | f |-> (g));',
]
EXTRA = '''( ) { } [ [* ] , ; : ? @ . ## # |-> |=> + - << >> < <= > >= == != & && | || ^ ~ ~& ~| ~^ ^~ ! = * / % a
    counter sequence endsequence assert property posedge disable iff or and throughout first_match intersect within
    s_until not if 0 128 3 4'd3 $past $rose $countones $'''.split()


def mutated(seed, count, bases):
    choose = random.Random(seed)
    texts = []
    while len(texts) < count:
        words = [t for _, t, _ in tokens_of(choose.choice(bases))][:-1]
        for _ in range(choose.choice((1, 1, 1, 2))):
            place = choose.randrange(len(words))
            what = choose.randrange(4)
            if what == 0:
                del words[place]
            elif what == 1:
                words.insert(place, choose.choice(EXTRA))
            elif what == 2:
                words[place] = choose.choice(EXTRA)
            else:
                other = choose.randrange(len(words))
                words[place], words[other] = words[other], words[place]
        text = ' '.join(words)
        if text not in texts:
            texts.append(text)
    return texts


def foreign_words():
    """Every word that the profile leaves out, in each place where a word may stand."""
    texts = []
    for word in sorted(FOREIGN) + ['property', 'iff']:
        texts += [f'{word} x;', f'{word}: assert property (@(posedge c) a);', f'assert property (@(posedge {word}) a);',
                  f'assert property (@(posedge c) {word});', f'assert property (@(posedge c) a {word} b);',
                  f'sequence {word}; a; endsequence',
                  f'counter {word} [2];', f'assert property (@(posedge c) x.{word});',
                  f'assert {word} (@(posedge c) a);',
                  f'assert property (@({word} c) a);', f'assert property (@(posedge c) disable {word} (r) a);',
                  f'assert property (@(posedge c) disable iff ({word}) a);', f'counter n [2] {word}(a);',
                  f'sequence s; a; endsequence : {word} assert property (@(posedge c) s);',
                  f'sequence s; a {word} endsequence']
    return texts


def asserted(text):
    return f'assert property (@(posedge c) {text});'


SMALLEST = ['a', '1', "'hF", 'a.b', 'a[0]', 'a[1:0]', '{a}', '{a, b}', '(a)', '$past(a)', '$past(a, 1)', '$rose(a)',
            '$fell(a)', '$stable(a)',
            '$changed(a)', '$onehot(a)', '$onehot0(a)', '!a', '~a', '&a', '~&a', '|a', '~|a', '^a', '~^a', '^~a',
            'a ? b : c', 'a ##1 b',
            '##0 a', '##[0:1] a', 'a[*0]', 'a[*0:1]', '(a ##1 b)', '(a ##1 b)[*2]', 'a throughout b', 'a and b',
            'a or b', 'a intersect b', 'a |-> b', 'a |=> b',
            '(a |-> b)', '((a |=> b))', '(s)', '((s))', 's[*2]', 's throughout a', '(a |-> b) |-> c', 'a |-> (b |-> c)',
            'a |-> b |-> c',
            '(a |-> b) and c', '(a ##1 b) + c', '(a ##1 b) && c', '(a) && c', '((a)[1])', 'a[1][2]', 'a ##1', 'a[*]',
            'a[+]', 'a ##[1:$] b', 'a[*1:$]',
            'a throughout', 'a[*1][*2]', '(a[*1])[*2]', 'a ##1 ##2 b', '##1 ##2 a', '##1 (##2 a)', 'a or', 'and a',
            'a and or b', 'a intersect', 'intersect a', 'a intersect and b',
            'a and b intersect c', 'a intersect b and c', 'a intersect b intersect c', 'a throughout b intersect c',
            'a intersect b throughout c',
            '(a ##1 b) intersect c', '(a |-> b) intersect c', 'a + b intersect c', 'a intersect.b', '$', '$time',
            '$countones(a)',
            'a * b', 'a / b', 'a % b', 'a ** b', '+a', '-a', 'a !b', 'a = b', 'a # b', '@a', 'a ? b', 'a ? b : c : d',
            'a ? b ? c : d : e', '{}', '{a,}', '()',
            'a,', "a ##1'b1 b", 'posedge', 'disable', 'a.posedge', 'clear', 'load', 'add', 'sub', 'counter',
            'counter.x', 'x.counter[1]']
BOUNDS = ['a |-> ##[3:1] b', 'a |-> ##128 b', '##127 a', '##[127:127] a', '##[0:128] a', '##[128:128] a', '##[2:2] a',
          '##[1_0:9] a', "##4'd3 a", "##'d3 a",
          'a[*127]', 'a[*128]', 'a[*2:1]', 'a[*0:127]', 'a[*0:128]', "a[*'d2]", '$past(a, 0)', '$past(a, 64)',
          '$past(a, 65)', "$past(a, 4'd3)", "v[4'd3]", "v['d3:2]", 'v[99999]']
WIDTHS = ['0', '1', '128', '129', "8'd4", 'w', '1_2']


def nested(count):
    """Nesting of each kind: so deep, within what is left after `property (`."""
    deep = '(' * count + 'a' + ')' * count
    return [asserted(deep), asserted('!' * count + 'a'), asserted('a ? b : ' * count + 'c'),
            asserted('a throughout ' * count + 'b'),
            asserted('{' * count + 'a' + '}' * count), asserted('$rose(' * count + 'a' + ')' * count),
            asserted('(' * (count - 1) + 'a[0]' + ')' * (count - 1)),
            asserted('(' * (count - 1) + 'a[*2]' + ')' * (count - 1)),
            asserted('(' * (count - 1) + '##[1:2] a' + ')' * (count - 1)),
            asserted('(' * count + 'a |-> b' + ')' * count), asserted('b ##1 ' + deep),
            asserted('a ? ' * count + 'b' + ' : c' * count),
            f'sequence s; {"(" * (count + 1)}a ##1 b{")" * (count + 1)}; endsequence ' + asserted('s'),
            f'assert property (@(posedge c) disable iff ({"(" * (count - 1)}r{")" * (count - 1)}) a);',
            f'counter n [2] clear({deep}); ' + asserted('a'), f'counter n [2] add({deep}, {deep}); ' + asserted('a')]


def texts_of_rules():
    whole = ['', '  ', '// only a comment', 'counter n [2];', 'sequence s; a; endsequence',
             'sequence s; a endsequence : s', asserted('a'),
             'x: ' + asserted('a'), 'assume property (@(posedge c.d) a);',
             'assert property (@(posedge c) disable iff (r) a);',
             'sequence s; a; endsequence : t ' + asserted('a'), 'sequence s; a; ; endsequence ' + asserted('a'),
             asserted('a') + ' ;',
             'counter n [2] load(a, b) clear(c); ' + asserted('a'),
             'counter n [2] sub(a, b) add(a, b); ' + asserted('a'),
             'counter n [2] clear(a, b); ' + asserted('a'), 'counter n [2] add(a); ' + asserted('a'),
             'counter: ' + asserted('a'), 'clear: ' + asserted('a'),
             'load: ' + asserted('a'), 'counter counter [1]; ' + asserted('counter'),
             'sequence sequence; a; endsequence', 'assert (a);', 'cover property (a);',
             'property p; a; endproperty', asserted('a') + ' property p;', asserted('a') + ' else $error("x");'[:5],
             'x: y: ' + asserted('a')]
    return (whole + [asserted(text) for text in SMALLEST + BOUNDS]
            + [f'counter n [{width}]; ' + asserted('a') for width in WIDTHS] + nested(63) + nested(64))


# the first match of an antecedent
FIRST_BASES = [
    'assert property (@(posedge clk) first_match(a ##[1:3] b) |-> c);',
    'r: assume property (@(posedge top.clk) disable iff (!rst) (first_match((req[*0:2]) ##1 s) |=> ##[1:4] gnt));',
    'assert property (@(posedge clk) ((first_match(a throughout b or c and d) |-> e ##1 (f |-> g))));',
]
FIRSTS = ['first_match(a) |-> b', 'first_match(a) |=> b', '(first_match(a) |-> b)', '((first_match((a)) |=> (b)))',
          'first_match(a)', 'first_match a |-> b',
          'first_match', 'first_match()', 'first_match() |-> b', 'first_match(a', 'first_match(a |-> b)',
          'first_match(a |-> b) |-> c', 'first_match(a) ##1 b |-> c',
          'a ##1 first_match(b) |-> c', '1 |-> first_match(a)', 'first_match(a) |-> first_match(b)',
          'first_match(first_match(a)) |-> b', '(first_match(a)) |-> b',
          'first_match(a)[*2] |-> b', 'first_match(a) or b |-> c', 'a or first_match(b) |-> c',
          'first_match(a) |-> b |-> c', '(first_match(a) |-> b) |-> c',
          'a |-> (first_match(b) |-> c)', 'first_match(a) && b |-> c', 'first_match(a, b) |-> c', 'first_match(a) |->',
          'first_match |-> b', 'first_match[*2] |-> b',
          'first_match.x |-> b', 'x.first_match |-> b', 'a throughout first_match(b) |-> c',
          'a intersect first_match(b) |-> c', '!first_match(a) |-> b',
          'first_match(a ##[1:3] b)', 'first_match(##2 a) |=> ##2 b', 'first_match(a[*0:1]) |-> b',
          'first_match(a[*2:1]) |-> b']


def firsts_nested(count):
    deep = '(' * count + 'a' + ')' * count
    return [asserted(f'first_match({deep}) |-> b'), asserted(f'first_match({deep[1:-1]}) |-> b'),
            asserted(f'first_match(a) |-> {deep}'),
            asserted('(' * count + 'first_match(a) |-> b' + ')' * count),
            asserted('(' * (count - 1) + 'first_match(a) |-> b' + ')' * (count - 1))]


# words that are names, and those that stand for themselves and are names after a dot alone
NAMES = 'counter clear load add sub ready Or'.split()
KEPT = '''sequence endsequence assert assume property posedge disable iff or and throughout intersect'''.split()


def words_in_places():
    """Each such word as a path, after a dot, and where a label, a sequence's and a counter's name stand."""
    return [text for word in NAMES + KEPT
            for text in (asserted(word), asserted(f'a.{word}'), f'{word}: ' + asserted('a'),
                         f'sequence {word}; a endsequence ' + asserted('a'), f'counter {word} [2]; ' + asserted('a'))]


# bounds and indices that are none, texts that end where one stands, comments, and an item of each kind
LATER = [asserted(text) for text in ('##width a', 'a[*n]', '$past(a, n)', 'v[bit]', "v[8'h1F]", '$clog2(a)',
                                     'a || ? b', "4 'b1")]
LATER += [f'assert property (@(posedge c){text}'
          for text in (' a ##', ' a ##[', ' a[*', ' $past(a,', ' v[', ' a |->', '')]
LATER += ['counter n [', '/* more *///', 'req |->/* no */ ##12 ack_1 // end',
          'assert property (@(posedge c) req |->/* no */ ##12 ack_1 // end',
          'assert property (@(posedge c) req |->/* no */ ##12 ack_1);// end',
          'counter n [128] clear(r) sub(s, 2); sequence s; a ##1 b endsequence counter: assume property '
          '(@(posedge t.c) disable iff (!r) s);']

# What is no text of tokens, with its fault by hand (IEEE 1800-2017, 5.7.1, and docs/REFUSALS.md).
LEXICAL = [
    ('a 4294967296', 'L2 BadNumber 2'), ("'hFFFFFFFFF", 'L2 BadNumber 0'), ("4'b1x00", 'L2 BadNumber 0'),
    (" 0'b1", 'L2 BadNumber 1'), ("129'b1", 'L2 BadNumber 0'), ("4'b", 'L2 BadNumber 0'), ("4'b_1", 'L2 BadNumber 0'),
    ("8'hFF?a:b", 'L2 BadNumber 0'), ("128'h1" + '0' * 32, 'L2 BadNumber 0'), ("4'sb1", 'L1 BadCharacter 1'),
    ("4'b 1", 'L2 BadNumber 0'), ("4' b1", 'L1 BadCharacter 1'),
    ("a '0", 'L1 BadCharacter 2'), ('a \\ b', 'L1 BadCharacter 2'), ('a /* b', 'L3 UnclosedComment 2'),
    ('/*', 'L3 UnclosedComment 0'), ('/*/', 'L3 UnclosedComment 0'),
]


def main(arguments):
    if arguments[0] != '--make':
        for line in open(arguments[0]):
            print(verdict(line.rstrip('\n')))
        return
    texts = BASES + texts_of_rules() + mutated(16, 400, BASES) + foreign_words()
    texts += FIRST_BASES + [asserted(text)
                            for text in FIRSTS] + firsts_nested(63) + firsts_nested(64) + mutated(43, 200, FIRST_BASES)
    texts += words_in_places() + LATER
    answers = [verdict(text) for text in texts] + [fault for _, fault in LEXICAL]
    texts += [text for text, _ in LEXICAL]
    with open(f'{arguments[1]}/data/texts.txt', 'w') as out:
        out.writelines(text + '\n' for text in texts)
    # what stands at the roots of trees was worked out by hand
    stored = f'{arguments[1]}/stdout'
    roots = [line for line in read_part(stored, 'texts').splitlines() if line.startswith('root ')]
    lines = [f'{number} {answer}' for number, answer in enumerate(answers, 1)] + roots
    write_part(stored, 'texts', ''.join(f'{line}\n' for line in lines))


if __name__ == '__main__':
    main(sys.argv[1:])
