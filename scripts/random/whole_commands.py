#!/usr/bin/env python3
"""Runs whole commands over mutated files: scripts/random/whole_commands.py SVAMON [RUNS [SEED [SECONDS]]]

A case takes an example's dump and the texts, ports, programs and team's files of this or another one, changes some of
them, and runs commands over them, until there are so many runs, or seconds. Each has to end with status 0, 1 or 2
within a minute. A refusal of `check`, `judge`, `run` and their kin is one line of standard error and nothing else; a
report has nothing on standard error. `check` and `run` say the same by 1, 2, 4 and 64 workers and windows of 1, 3 and
1,024 clocks, and what `judge` says, but for K1 to K4 and U3, which `judge` does not have; a program that `build` made
is accepted, and runs if its clock is one of the dump's. The first case in which something is wrong is left in the
working folder, and shown.
"""
import os
import pathlib
import random
import re
import subprocess
import sys
import tempfile
import time

EXAMPLES = pathlib.Path(__file__).resolve().parents[2] / 'examples'
MOST = 6000
LIMIT = 60
TEAMS = [f'--workers {workers} --window {window}' for workers in (1, 2, 4, 64) for window in (1, 3, 1024)]
KINDS = {'dump.vcd': 'd.vcd', 'assertion.sva': 'r.sva', 'ports.txt': 'p.txt', 'program.svm': 'c.svm',
         'checks.sv': 's.sv'}
PIECES = {
    'd.vcd': [b'$end', b'$var wire 1 ! x $end', b'$scope module m $end', b'$upscope $end', b'$enddefinitions $end',
              b'#18446744073709551615', b'#0', b'#-1', b'b1', b'bxz01 !', b'1!', b'x!', b'r1.5 !', b'$dumpoff',
              b'$comment', b'\r\n', b'\t', b'\f', b'\0', b'\xff', b'\n#1\n', b' [127:0] ', b'$dumpvars'],
    'r.sva': [b'(', b')', b';', b'##', b'##[0:127]', b'|->', b'|=>', b'[*0:3]', b'[->', b'throughout', b'within',
              b'first_match(', b'$past(', b'$rose(', b"1'b1", b"128'hf", b'disable iff', b'counter c;', b'sequence s;',
              b'endsequence', b'// \r', b'/*', b'\0', b'\xe9', b'tb.clk', b'[7:0]', b'a: assert property', b'||', b'{',
              b'~'],
    'p.txt': [b'port', b'addr=64', b'data=1024', b'id=0', b'wait=0', b'multi', b'#', b'\t', b'\n', b'\xff', b'= '],
    'c.svm': [b'\0', b'\xff', b'\x40', b'\x44', b'\x7f', b'\0\0\0\1', b'SVAM'],
    's.sv': [b'(', b')', b'`define X', b'`X', b'`ifdef A', b'`endif', b'module m;', b'endmodule', b'if (1) begin',
             b'end', b'generate', b'##[1:$]', b'not', b'until', b'|->', b'nexttime', b'/*', b'\\', b'"', b'\0', b'\xe9',
             b'[*1:$]', b'local::x', b'int v;', b'assert property', b'expect (', b'$countones(', b"'1", b'inside {',
             b'#1'],
}
draw = random.Random()


class Wrong(Exception):
    """What is wrong with a case."""


def samples():
    """The examples' files, each kind's by the example's name; a long one has its first part alone."""
    found = {new: {} for new in KINDS.values()}
    for path in sorted(EXAMPLES.glob('*/*')):
        if path.name in KINDS:
            data = path.read_bytes()
            cut = data[:MOST].rfind(b'\n#') if len(data) > MOST and path.suffix == '.vcd' else len(data)
            found[KINDS[path.name]][path.parent.name] = data[:cut] + b'\n' * (cut < len(data))
    return found


def changed(data, pieces, others):
    """The bytes with one to four changes."""
    for _ in range(draw.choice([1, 1, 2, 4])):
        at = draw.randrange(len(data) + 1)
        to = min(len(data), at + draw.choice([1, 1, 2, 8, 40]))
        kind = draw.randrange(8)
        if kind == 0:
            data = data[:at] if draw.randrange(3) == 0 else data[:at] + data[to:]
        elif kind == 1:
            data = data[:at] + data[to:]
        elif kind <= 4:
            data = data[:at] + draw.choice(pieces) + data[at + draw.choice([0, 0, 1]):]
        elif kind == 5:
            data = data[:to] + data[at:to] * draw.choice([1, 1, 40]) + data[to:]
        elif kind == 6 and data:
            data = data[:at] + bytes([draw.randrange(256)]) + data[at + 1:]
        else:
            lines, more = data.split(b'\n'), draw.choice(others).split(b'\n')
            lines.insert(draw.randrange(len(lines) + 1), draw.choice(more))
            data = b'\n'.join(lines)
    return data


class Case:
    """Files in the working folder, and the runs over them."""

    def __init__(self, program, files):
        self.program, self.runs = program, 0
        example = draw.choice(sorted(files['d.vcd']))
        changes = draw.sample(sorted(files), draw.choice([1, 1, 2, 5]))
        for name, of in files.items():
            data = of[example if example in of else draw.choice(sorted(of))]
            if name in changes:
                data = changed(data, PIECES[name], list(of.values()))
            pathlib.Path(name).write_bytes(data)
        self.scope = re.search(rb'\$scope\s+\S+\s+(\S+)\s', files['d.vcd'][example])[1].decode()

    def run(self, words):
        """The status, and what was written. Each run ends in time, and by itself."""
        self.runs += 1
        try:
            how = {'stdin': subprocess.DEVNULL, 'capture_output': True, 'timeout': LIMIT}
            ran = subprocess.run([self.program, *words.split()], **how)
        except subprocess.TimeoutExpired:
            raise Wrong(f'{words}: no end') from None
        if ran.returncode not in (0, 1, 2):
            raise Wrong(f'{words}: status {ran.returncode}, {ran.stderr[-200:]!r}')
        return ran.returncode, ran.stdout, ran.stderr

    def plain(self, words):
        """Of a command that prints a report, or one line of a refusal."""
        status, out, said = self.run(words)
        refused = re.fullmatch(rb'svamon: [A-Z]\d+ \w+( [ -~]*)?\n', said)
        if (status == 2) != bool(refused) or (status == 2) == bool(out) or said and not refused:
            raise Wrong(f'{words}: status {status}, {len(out)} bytes, {said[:200]!r}')
        return status, out, said

    def teams(self, words):
        """What a command says by one team, and so by each."""
        first = self.plain(f'{words} {TEAMS[0]}')
        for team in draw.sample(TEAMS[1:], 2):
            if self.plain(f'{words} {team}') != first:
                raise Wrong(f'{words}: {team} says another thing')
        return first

    def report(self):
        """`check`, against `judge`."""
        more = draw.choice(['', '', ' --axi p.txt'])
        checked = self.teams(f'check --vcd d.vcd --sva r.sva{more}')
        if re.match(rb'svamon: (K\d|U3) ', checked[2]) or more and checked[0] != 2:
            return
        if self.plain(f'judge --vcd d.vcd --sva r.sva{more}') != checked:
            raise Wrong('judge says another thing than check')

    def told(self):
        """What explains, notes and lists: no more than that it ends."""
        for words in ('lint --vcd d.vcd --sva r.sva', 'explain --vcd d.vcd --sva r.sva', 'names --vcd d.vcd',
                      'check --vcd d.vcd --sva r.sva --keep-going', 'rules --axi p.txt'):
            self.run(words)

    def programs(self):
        """Bytecode from anywhere, and from `build`."""
        if self.plain_to('upgrade c.svm', 'u.svm'):
            self.plain('verify u.svm')
        self.teams('run --vcd d.vcd --code c.svm')
        named = re.search(rb'(?m)^\s*(\w+)\s*:\s*assert', pathlib.Path('r.sva').read_bytes())
        name = named[1].decode() if named else 'assert_1'
        if self.plain_to(f'build --vcd d.vcd --sva r.sva --name {name}', 'b.svm'):
            ran = self.teams('run --vcd d.vcd --code b.svm')
            if self.plain('verify b.svm')[0] or ran[0] == 2 and not re.match(rb'svamon: C[12] ', ran[2]):
                raise Wrong('a built program is refused')

    def plain_to(self, words, name):
        """Whether a command made its file, which there is only then."""
        pathlib.Path(name).unlink(missing_ok=True)
        status, out, said = self.run(f'{words} --out {name}')
        if out or (status == 2) != said.startswith(b'svamon: ') or (status == 0) != os.path.exists(name):
            raise Wrong(f'{words}: status {status}, {said[:200]!r}')
        return status == 0

    def team_files(self):
        """A team's files, and what is written of them as a text."""
        more = f'--vcd d.vcd --scope {self.scope} --bound {draw.choice([2, 9])}'
        status, out, _ = self.run(f'import s.sv {more}')
        if bool(out) != (status != 2):
            raise Wrong(f'import: status {status} and {len(out)} bytes')
        first = self.run(f'check --sv s.sv {more} {TEAMS[0]}')
        if self.run(f'check --sv s.sv {more} {draw.choice(TEAMS[1:])}') != first:
            raise Wrong('check --sv by another team says another thing')
        for command in ('lint', 'explain'):
            self.run(f'{command} --sv s.sv {more}')


def main(words):
    runs, seed, seconds = (int(given) for given in (*words[2:], *(100_000, 1, 3600)[len(words) - 2:]))
    program, files, ends, done, cases = os.path.realpath(words[1]), samples(), time.time() + seconds, 0, 0
    with tempfile.TemporaryDirectory(prefix='whole-commands-') as folder:
        here = os.getcwd()
        os.chdir(folder)
        while done < runs and time.time() < ends:
            draw.seed(f'{seed} {cases}')
            case = Case(program, files)
            try:
                draw.choice([case.report, case.report, case.told, case.programs, case.team_files])()
            except Wrong as wrong:
                os.chdir(here)
                left = tempfile.mkdtemp(prefix='whole-commands-', dir='.')
                for name in files:
                    pathlib.Path(left, name).write_bytes(pathlib.Path(folder, name).read_bytes())
                print(f'case {cases} of seed {seed}, left in {left}: {wrong}')
                return 1
            done, cases = done + case.runs, cases + 1
        os.chdir(here)
    print(f'{done} runs in {cases} cases from seed {seed}: all answered')
    return 0


if __name__ == '__main__':
    sys.exit(main(sys.argv))
