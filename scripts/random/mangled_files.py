#!/usr/bin/env python3
"""Imports files that were cut or mangled: scripts/random/mangled_files.py SVAMON [FILES [SEED [PROCESSES]]]

Files of random_import.py lose, repeat, swap or get bytes and tokens. Each import has to end with status 0, 1 or 2, to
tell each refusal with a line and a column of the file, and to write what `check` reads over a dump of the signals.
Seeds and processes are as there.
"""
import os
import pathlib
import re
import sys
import tempfile

import random_import as drawn

draw = drawn.draw
PIECES = [
    '(', ')', '[', ']', '{', '}', ';', ':', '##', '|->', '[*', '$', '`', '"', '/*', '//', '\\', "'",
    '@', 'assert', 'property', 'endproperty', 'module', 'endmodule', 'begin', 'end', 'if', 'case',
    'not', '`define X', '`X', '`ifdef A', '`endif', '\0', '\xe9', '[->', '2147483648', "128'hf",
    '$past(', 'default', 'disable iff',
]


def mangled(text):
    """The text with one to four changes."""
    for _ in range(draw.randint(1, 4)):
        at = draw.randrange(len(text) + 1)
        to = min(len(text), at + draw.choice([1, 1, 2, 5, 30]))
        kind = draw.choice(['cut', 'lose', 'put', 'put', 'repeat', 'swap'])
        if kind == 'cut':
            text = text[:at]
        elif kind == 'lose':
            text = text[:at] + text[to:]
        elif kind == 'put':
            text = text[:at] + draw.choice(PIECES) + text[at:]
        elif kind == 'repeat':
            text = text[:to] + text[at:to] * draw.choice([1, 1, 50]) + text[to:]
        else:
            whole = draw.randrange(4) == 0
            text = text[to:] + text[:to] if whole else text[:at] + text[at:to][::-1] + text[to:]
    return text


def faults_of(program, text, dump):
    """What is wrong with the import of a text, or None."""
    file, written = pathlib.Path('mangled.sv'), pathlib.Path('mangled.sva')
    file.write_text(text, encoding='utf-8')
    words = ('import', str(file), '--scope', 'tb', '--bound', draw.choice(['3', '30']))
    out, messages, status = drawn.ran(program, *words)
    if status not in (0, 1, 2):
        return f'status {status}: {messages}'
    lines = text.split('\n')
    for message in messages.splitlines():
        place = re.match(r'mangled\.sv:(\d+):(\d+): (refused|note) \S+ \w+', message)
        if not place or int(place[1]) > len(lines):
            return f'no place: {message}'
    if bool(out) != (status != 2):
        return f'status {status} and {len(out)} bytes'
    if not out:
        return None
    written.write_text(out)
    _, fault, status = drawn.ran(program, 'check', '--vcd', str(dump), '--sva', str(written))
    if status > 1 and not re.match(r'svamon: (Y1|Y3|Y4|C1|K2|OutOfMemory)', fault):
        return f'check refuses: {fault}{out}'
    return None


def run_of(job):
    """What is wrong with the first file that is, of those of some seeds; or None."""
    program, seeds = job
    with tempfile.TemporaryDirectory(prefix='mangled-') as folder:
        os.chdir(folder)
        for seed in seeds:
            draw.seed(seed)
            dump = pathlib.Path('mangled.vcd')
            dump.write_text(drawn.dump_of(drawn.random_rows()))
            text = mangled(drawn.file_of(draw.randint(1, 4))[0])
            wrong = faults_of(program, text, dump)
            if wrong:
                os.chdir('/')
                return f'the file of seed {seed}: {wrong}\n{text}'
        os.chdir('/')
    return None


def main():
    files, seed, processes = drawn.numbers(sys.argv, [200, 1, 1])
    for wrong in drawn.shared(run_of, os.path.realpath(sys.argv[1]), files, seed, processes):
        if wrong:
            print(wrong)
            return 1
    print(f'{files} files from seed {seed}: all answered')
    return 0


if __name__ == '__main__':
    sys.exit(main())
