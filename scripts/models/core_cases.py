#!/usr/bin/env python3
"""Makes lists of steps for the program answers_bytecode with the answers of an independent core.

`scripts/models/core_cases.py FOLDER` writes FOLDER/data/core_cases.txt, and the part `cores` of FOLDER/stdout. Between
two cases byte 1 stands, and in a case byte 2 between its four parts: a dump, whose clock is `clk`; the files of
bytecode of its monitors in hexadecimal digits, one a line; a line with how many workers there are and how many clocks a
window has; and the steps, one a line: `slide`, `claim W`, `advance W K`, `publish W`, `gather`.
Its answer is a line `replies` with a letter for each step, D for one that was done and R for a refused
one, and what is on the board after the last one: a line `batch M A B (START VERDICT CLOCK) ..` for each
batch, in the order in which they were published, or, where a list is long, how many there are and a sum
of these lines.
"""
import os
import random
import sys
from dataclasses import dataclass, field

from machine_makers import accepting, over_bits, placed, some_column, some_program, step as block_of
from machine_model import Machine
from stored_parts import write_part
from verifier_model import encode

SHORT, STEPS = 40, 10_000


@dataclass
class Monitor:
    number: int
    machine: Machine
    paths: list
    since: int = 0
    decided: list = field(default_factory=list)


@dataclass
class Worker:
    hand: Monitor = None
    done: list = field(default_factory=list)


class Core:
    """What the steps of workers do, by the table of steps."""

    def __init__(self, programs, columns, clocks, workers, window):
        self.columns, self.clocks, self.size = columns, clocks, window
        self.first = self.end = 0
        self.waiting = [Monitor(at, Machine(it), [path for _, path in it.signals]) for at, it in enumerate(programs)]
        self.count = len(programs)
        self.workers = [Worker() for _ in range(workers)]
        self.board = []

    def worker(self, number):
        return self.workers[number] if number < len(self.workers) else Worker()

    def is_allowed(self, step):
        name, *more = step
        if name == "slide":
            rest = len(self.waiting) == self.count and all(it.machine.now == self.end for it in self.waiting)
            return rest and self.end < self.clocks
        if name == "gather":
            return not self.waiting and all(it.hand is None for it in self.workers)
        if more[0] >= len(self.workers):
            return False
        hand = self.workers[more[0]].hand
        if name == "claim":
            return hand is None and bool(self.waiting) and self.waiting[0].machine.now < self.end
        if name == "advance":
            return hand is not None and 1 <= more[1] <= self.end - hand.machine.now
        return hand is not None and hand.machine.now == self.end

    def advance(self, monitor, clocks):
        for _ in range(clocks):
            row = [self.columns[path][monitor.machine.now] for path in monitor.paths]
            monitor.decided += monitor.machine.clock(row)

    def publish(self, worker):
        monitor, worker.hand = worker.hand, None
        self.board.append((monitor.number, monitor.since, self.end, monitor.decided))
        monitor.since, monitor.decided = self.end, []
        worker.done.append(monitor)

    def do(self, step):
        name, *more = step
        if name == "slide":
            self.first, self.end = self.end, min(self.clocks, self.end + self.size)
        elif name == "claim":
            self.workers[more[0]].hand = self.waiting.pop(0)
        elif name == "advance":
            self.advance(self.workers[more[0]].hand, more[1])
        elif name == "publish":
            self.publish(self.workers[more[0]])
        else:
            self.waiting = sorted((it for worker in self.workers for it in worker.done), key=lambda it: it.number)
            for worker in self.workers:
                worker.done = []

    def step(self, step):
        if not self.is_allowed(step):
            return "R"
        self.do(step)
        return "D"


def some_step(draw, core):
    """Any step, also of a worker that isn't there, or over more clocks than are left."""
    worker = draw.randrange(len(core.workers) + 1)
    count = draw.choice((0, 1, 1, 2, core.size, core.size + 1, 2 ** 64 - 1))
    steps = (("slide",), ("claim", worker), ("advance", worker, count), ("publish", worker), ("gather",))
    return draw.choice(steps)


def good_step(draw, core):
    """One of the steps that are allowed, if there is one."""
    steps = [("slide",), ("gather",)]
    for at, worker in enumerate(core.workers):
        left = core.end - worker.hand.machine.now if worker.hand else 0
        steps += [("claim", at), ("publish", at), ("advance", at, draw.randrange(left) + 1 if left else 1)]
    good = [it for it in steps if core.is_allowed(it)]
    return draw.choice(good) if good else some_step(draw, core)


def dump_of(widths, columns, clocks, is_noisy):
    """A dump in which each signal has its values at the ticks of the clock, and others right after them."""
    codes = {path: f"s{at}" for at, path in enumerate(widths)}
    lines = ["$var wire 1 ! clk $end"]
    lines += [f"$var wire {width} {codes[path]} {path.decode()} $end" for path, width in widths.items()]
    lines += ["$enddefinitions $end", "#0", "0!"]
    for tick in range(clocks):
        lines += [f"b{columns[path][tick]:b} {codes[path]}" for path in widths]
        lines += [f"#{10 * tick + 5}", "1!"]
        lines += [f"b{~columns[path][tick] & 1:b} {codes[path]}" for path in widths if is_noisy]
        lines += [f"#{10 * tick + 10}", "0!"]
    return "".join(f"{it}\n" for it in lines)


def programs_of(draw, count):
    """Programs whose signals have paths of their own, but for some that the first has, too."""
    made = [some_program(draw) for _ in range(count)]
    for at, program in enumerate(made):
        program.name, program.clock = b"m%d" % at, b"clk"
        program.signals = [(width, b"m%d_%d" % (at, slot)) for slot, (width, _) in enumerate(program.signals)]
        for slot, (width, _) in enumerate(program.signals):
            alike = [it for it in made[0].signals if it[0] == width]
            if alike and at and not draw.randrange(2):
                program.signals[slot] = alike[0]
    return made


def batch_line(batch):
    number, first, end, decided = batch
    return " ".join([f"batch {number} {first} {end}", *("(%d %s %d)" % it for it in decided)]) + "\n"


def summed(text):
    total = 0xcbf29ce484222325
    for byte in text.encode():
        total = (total ^ byte) * 0x100000001b3 % 2 ** 64
    return total


def case_of(programs, columns, core, steps, replies):
    """A case, and its answer."""
    widths = {path: width for it in programs for width, path in it.signals}
    team, made = f"{len(core.workers)} {core.size}\n", "".join(" ".join(map(str, it)) + "\n" for it in steps)
    parts = [dump_of(widths, columns, core.clocks, len(steps) < 1000),
             "".join(f"{encode(it, 1).hex()}\n" for it in programs), team, made]
    lines = "".join(map(batch_line, core.board))
    if len(steps) > 1000:
        lines = f"batches {len(core.board)} sum {summed(lines):016x}\n"
    return "\x02".join(parts), f"replies {replies}\n{lines}"


def case(draw, count, clocks, monitors, workers, window):
    programs = programs_of(draw, monitors)
    widths = {path: width for it in programs for width, path in it.signals}
    columns = {path: some_column(draw, width, clocks) for path, width in widths.items()}
    core, steps, replies = Core(programs, columns, clocks, workers, window), [], ""
    for _ in range(count):
        steps.append(some_step(draw, core) if draw.randrange(4) == 0 else good_step(draw, core))
        replies += core.step(steps[-1])
    return case_of(programs, columns, core, steps, replies)


def worked_case(steps, replies, board):
    """Steps of a core of one worker and windows of one clock for `x |=> y` over x = 1, 0 and y = 0, 1, with an answer
    worked out by hand."""
    program = over_bits(2, placed(1, block_of(0, ("Enter", 1)), [("Accept",), ("Stop",)]), accepting(1))
    program.name, program.clock, program.signals = b"r", b"clk", [(1, b"x"), (1, b"y")]
    values = dict(zip((b"x", b"y"), ([1, 0], [0, 1])))
    core = Core([program], values, 2, 1, 1)
    assert "".join(map(core.step, steps)) == replies and "".join(map(batch_line, core.board)) == board, steps
    return case_of([program], values, core, steps, replies)


def worked_cases():
    """Nothing to publish at first; what is refused and done in the first window, and in the second, after which the
    board has two batches."""
    first = [("claim", 0), ("slide",), ("claim", 1), ("claim", 0), ("advance", 0, 2), ("advance", 0, 1), ("slide",),
             ("publish", 0), ("slide",), ("gather",)]
    second = [("slide",), ("advance", 0, 1), ("claim", 0), ("advance", 0, 1), ("publish", 0), ("gather",), ("slide",)]
    yield worked_case([("publish", 0)], "R", "")
    yield worked_case(first, "RDRDRDRDRD", "batch 0 0 1\n")
    yield worked_case(first + second, "RDRDRDRDRD" + "DRDDDDR", "batch 0 0 1\nbatch 0 1 2 (0 Holds 1) (1 Vacuous 1)\n")


def cases():
    yield from worked_cases()
    draw = random.Random(1)
    for _ in range(SHORT):
        yield case(draw, draw.randrange(20, 160), draw.randrange(12), draw.randrange(1, 7), draw.randrange(1, 9),
                   draw.randrange(1, 6))
    for monitors, workers, window, clocks in ((12, 8, 3, 460), (1, 1, 1, 1200), (7, 3, 4, 700)):
        yield case(draw, STEPS, clocks, monitors, workers, window)


def main(folder):
    os.makedirs(f"{folder}/data", exist_ok=True)
    made = list(cases())
    with open(f"{folder}/data/core_cases.txt", "w", newline="") as out:
        out.write("\x01".join(it for it, _ in made))
    write_part(f"{folder}/stdout", "cores", "".join(it for _, it in made))


if __name__ == "__main__":
    main(sys.argv[1]) if len(sys.argv) == 2 else sys.exit(__doc__)
