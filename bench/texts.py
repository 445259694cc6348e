#!/usr/bin/env python3
"""Texts of the assertion language of unusual shapes, written to standard output: bench/texts.py SHAPE"""
import sys

BEHIND = 'assert property (@(posedge top.clk) %s);\n'

SHAPES = {
    # 30 tokens each, some 240 bytes
    'plain': lambda: ''.join(
        f'the_label_of_the_assertion_{i}: assert property (@(posedge the_top_module.the_clock_of_the_bus) disable iff (!the_top_module.reset_is_low) '
        f'the_top_module.the_bus.request_is_valid_{i} && the_top_module.the_bus.ready |-> ##[1:16] the_top_module.the_bus.grant_{i});\n' for i in range(4096)),
    'chain': lambda: BEHIND % ' + '.join(f'a{i}' for i in range(100000)),
    'sides': lambda: BEHIND % ' or '.join(f'a{i} ##1 b' for i in range(100000)),
    'items': lambda: (BEHIND % 'a') * 100000,
    'digits': lambda: BEHIND % ('1' * 1000000),
    # 4,096 assertions of 30 tokens over 10,000 paths
    'suite': lambda: ''.join(
        f'the_label_{i}: assert property (@(posedge the_top_module.the_clock) disable iff (!the_top_module.the_bus.signal_{i}) '
        f'the_top_module.the_bus.signal_{i + 4000} && the_top_module.the_bus.signal_{2 * i} |-> ##[1:16] the_top_module.the_bus.signal_{9999 - i});\n' for i in range(4096)),
    # each names the one before twice
    'twice': lambda: 'sequence s0; the_top_module.the_bus.signal_0 endsequence\n'
    + ''.join(f'sequence s{i}; s{i - 1} ##1 s{i - 1} endsequence\n' for i in range(1, 1000)) +
        BEHIND.replace('top.clk', 'the_top_module.the_clock') % 's6',
    # the same, each declared behind its use
    'before': lambda: ''.join(f'sequence s{i}; s{i - 1} ##1 s{i - 1} endsequence\n' for i in range(999, 0, -1))
    + 'sequence s0; the_top_module.the_bus.signal_0 endsequence\n' +
        BEHIND.replace('top.clk', 'the_top_module.the_clock') % 's6',
    # repetitions of repetitions
    'deep': lambda: BEHIND.replace('top.clk', 'the_top_module.the_clock') % (
        '(' * 50 + 'the_top_module.the_bus.signal_0' + '[*127])' * 50
        + '[*0] or the_top_module.the_bus.signal_1 |-> the_top_module.the_bus.signal_2'),
    # the paths that these read, with their widths
    'names': lambda: 'the_top_module.the_clock 1\n'
    + ''.join(f'the_top_module.the_bus.signal_{i} {1 + i % 64}\n' for i in range(10000)),
    'comment': lambda: '/*' + ' any words ' * 1000000 + '*/' + BEHIND % 'a',
}

if __name__ == '__main__':
    sys.stdout.write(SHAPES[sys.argv[1]]())
