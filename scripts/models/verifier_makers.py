"""Makes random programs that are well formed: typed sample code, and blocks that enter upwards."""
from verifier_model import COMPARES, JOINS, REDUCES, SHIFTS, Program, Section, least_of

WIDTHS = (1, 1, 1, 2, 3, 8, 8, 16, 32, 64, 65, 127, 128)


class Maker:
    """Sample code that grows; a jump is filled in when its target is reached."""

    def __init__(self, rng, program, front):
        self.rng, self.program, self.code = rng, program, [*front]

    def emit(self, *instr):
        self.code.append(instr)
        return len(self.code) - 1

    def land(self, jump):
        """Makes a jump lead to the next instruction."""
        self.code[jump] = (self.code[jump][0], len(self.code))

    def slots(self, width):
        return [it for it, at in enumerate(self.program.widths()) if at == width]

    def leaf(self, width):
        slots = self.slots(width)
        way = self.rng.randrange(4)
        if way == 0 or not slots:
            self.emit("Push", width, self.rng.choice((0, 1, (1 << width) - 1)))
        elif way == 1:
            self.emit("Past", self.rng.choice(slots), self.rng.choice((1, 1, 2, 3, 64, 4096)))
        else:
            self.emit("Load", self.rng.choice(slots))

    def joined(self, width, depth):
        self.value(width, depth)
        self.value(width, depth)
        self.emit(self.rng.choice(JOINS))

    def reduced(self, width, depth):
        if width > 1:
            return self.zero_extended(width, depth)
        if self.rng.randrange(2):
            self.value(self.rng.choice(WIDTHS), depth)
            return self.emit(self.rng.choice(REDUCES))
        operands = self.rng.choice(WIDTHS)
        self.value(operands, depth)
        self.value(operands, depth)
        return self.emit(self.rng.choice(COMPARES))

    def shifted(self, width, depth):
        self.value(width, depth)
        self.value(self.rng.choice(WIDTHS), depth)
        self.emit(self.rng.choice(SHIFTS))

    def inverted(self, width, depth):
        self.value(width, depth)
        self.emit("Not")

    def concatenated(self, width, depth):
        if width == 1:
            return self.inverted(width, depth)
        left = self.rng.randrange(1, width)
        self.value(left, depth)
        self.value(width - left, depth)
        return self.emit("Concat")

    def zero_extended(self, width, depth):
        self.value(self.rng.randrange(1, width + 1), depth)
        self.emit("Zext", width)

    def sliced(self, width, depth):
        wide = self.rng.randrange(width, 129)
        low = self.rng.randrange(wide - width + 1)
        self.value(wide, depth)
        self.emit("Slice", low + width - 1, low)

    def chosen(self, width, depth):
        self.value(1, depth)
        self.value(width, depth)
        self.value(width, depth)
        self.emit("Mux")

    def branched(self, width, depth):
        self.value(1, depth)
        other = self.emit("JumpIfZero", 0)
        self.value(width, depth)
        over = self.emit("Jump", 0)
        self.land(other)
        self.value(width, depth)
        self.land(over)

    def value(self, width, depth):
        """Pushes a value of a width."""
        ways = (self.joined, self.reduced, self.shifted, self.inverted, self.concatenated)
        ways += (self.zero_extended, self.sliced, self.chosen, self.branched)
        if depth == 0 or self.rng.random() < 0.3:
            self.leaf(width)
        else:
            self.rng.choice(ways)(width, depth - 1)

    def effect(self, depth):
        """Sets an atom or stores a counter, where there is one."""
        counters = self.program.counters
        if counters and self.rng.randrange(2):
            counter = self.rng.randrange(len(counters))
            self.value(counters[counter], depth)
            self.emit("Store", counter)
        elif self.program.atoms:
            self.value(1, depth)
            self.emit("SetAtom", self.rng.randrange(self.program.atoms))

    def guarded(self, depth):
        """Code after conditions that all lead past it, or past a Halt at its end."""
        jumps = []
        for _ in range(self.rng.choice((1, 1, 2, 3))):
            self.value(1, depth)
            jumps.append(self.emit("JumpIfZero", 0))
        self.statements(depth)
        if self.rng.randrange(4) == 0:
            self.emit("Halt")
        for jump in jumps:
            self.land(jump)

    def forked(self, depth):
        self.value(1, depth)
        other = self.emit("JumpIfZero", 0)
        self.statements(depth)
        over = self.emit("Jump", 0)
        self.land(other)
        self.statements(depth)
        self.land(over)

    def onward(self, _depth):
        self.land(self.emit("Jump", 0))

    def statements(self, depth):
        for _ in range(self.rng.randrange(3)):
            ways = [self.effect] if depth == 0 else [self.effect, self.guarded, self.forked]
            self.rng.choice([*ways, self.onward] if self.rng.random() < 0.1 else ways)(
                max(depth - 1, 0))

    def whole(self, parts, depth):
        for _ in range(parts):
            if self.rng.randrange(12) == 0:
                self.value(self.rng.choice(WIDTHS), depth)
            self.statements(depth)
        self.emit("Halt")
        return self.code


class BlockMaker:
    """The block of a position, with targets from the section's start."""

    def __init__(self, rng, atoms, position, positions, first, accepts=("Accept",)):
        self.rng, self.atoms, self.first, self.code = rng, atoms, first, []
        self.later, self.accepts = range(position + 1, positions), accepts

    def step(self, depth):
        way = self.rng.randrange(5)
        if way < 2 and self.later:
            self.code.append(("Enter", self.rng.choice(self.later[:4])))
        elif way == 2 or not self.atoms or depth == 0:
            self.code.append((self.rng.choice(self.accepts) if self.accepts[1:] else "Accept",))
        else:
            self.guarded(depth - 1)

    def guarded(self, depth):
        jump, atom = len(self.code), self.rng.randrange(self.atoms)
        self.code.append(None)
        self.steps(depth)
        if self.rng.randrange(3) == 0:
            self.code.append(("Stop",))
        self.code[jump] = ("Unless", atom, self.first + len(self.code))

    def steps(self, depth):
        for _ in range(self.rng.randrange(4)):
            self.step(depth)

    def whole(self):
        self.steps(2)
        return [*self.code, ("Stop",)]


def random_section(rng, atoms, positions, accepts=("Accept",)):
    """A section whose blocks accept by these instructions."""
    section = Section(rng.randrange(1 << positions) if rng.randrange(8) else 0)
    for position in range(positions):
        maker = BlockMaker(rng, atoms, position, positions, section.size(), accepts)
        section.blocks.append(maker.whole())
    return section


def settle(program):
    """Declares the least limits."""
    least, _ = least_of(program)
    for name, value in least.items():
        setattr(program, name, value)
    return program


# How the antecedent of a program of version 2 may accept.
EITHER = ("Accept", "AcceptFirst")


def random_program(rng, parts, depth, front=(), accepts=("Accept",)):
    """A program that is accepted, with the least limits; `front` goes before other sample code, and
    the antecedent accepts by the instructions named last."""
    atoms = rng.choice((1, 2, 3, 5, 127) if front else (0, 1, 2, 3, 5, 127))
    signals = [(rng.choice(WIDTHS), b"s%d" % it) for it in range(rng.randrange(5))]
    counters = [rng.choice(WIDTHS) for _ in range(rng.randrange(4))]
    disable = rng.randrange(atoms) if atoms and rng.randrange(3) == 0 else 255
    program = Program(atoms=atoms, signals=signals, counters=counters, disable=disable)
    program.sample = Maker(rng, program, front).whole(parts, depth)
    program.antecedent = random_section(rng, atoms, rng.randrange(6), accepts)
    program.consequent = random_section(rng, atoms, rng.randrange(6))
    return settle(program)
