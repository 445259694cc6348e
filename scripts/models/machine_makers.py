"""Makes programs for the machine, with sections that are written by hand or at random, and rows."""
from machine_model import REDUCES, most
from verifier_makers import Maker, random_program, random_section, settle
from verifier_model import MOST, Program, Section


def placed(start, *blocks):
    """A section of blocks whose targets are counted from their own first instruction."""
    section = Section(start)
    for block in blocks:
        first = section.size()
        section.blocks.append([
            ("Unless", it[1], it[2] + first) if it[0] == "Unless" else it for it in block])
    return section


def step(atom, *instrs):
    """The block of a position that does something where an atom is 1."""
    return [("Unless", atom, len(instrs) + 1), *instrs, ("Stop",)]


def accepting(atom, accept=("Accept",)):
    """A section of one tick at which an atom is 1."""
    return placed(1, step(atom, accept))


def always():
    """A section of one tick, whatever it is."""
    return placed(1, [("Accept",), ("Stop",)])


def monitor(widths, sample, antecedent, consequent, **fields):
    """A program over signals of these widths, with the least limits but for those given."""
    signals = [(width, b"s%d" % it) for it, width in enumerate(widths)]
    program = Program(
        signals=signals, sample=[*sample, ("Halt",)], antecedent=antecedent, consequent=consequent)
    for name in ("atoms", "counters", "disable"):
        setattr(program, name, fields.get(name, getattr(program, name)))
    settle(program)
    for name, value in fields.items():
        setattr(program, name, value)
    return program


def over_bits(count, antecedent, consequent, **fields):
    """A program of so many signals of one bit, each an atom."""
    sample = [it for at in range(count) for it in (("Load", at + 1), ("SetAtom", at))]
    return monitor([1] * count, sample, antecedent, consequent, **{"atoms": count} | fields)


def columns(*texts):
    """The rows of signals of one bit, each given by its values from the first clock on."""
    return [[int(it) for it in row] for row in zip(*texts)]


def size_of(program):
    return len(program.sample) + program.antecedent.size() + program.consequent.size()


def accepting_first(rng, program):
    """The program with some of the antecedent's Accepts made AcceptFirst: one in three, or all."""
    which = rng.choice((1, 3))
    for block in program.antecedent.blocks:
        for at, instr in enumerate(block):
            if instr == ("Accept",) and rng.randrange(which) == 0:
                block[at] = ("AcceptFirst",)
    return program


def lively_block(rng, atoms, position, positions):
    """A block that enters later positions or accepts, mostly where an atom is 1."""
    later = range(position + 1, positions)
    instrs = [("Enter", rng.choice(later[:3])) for _ in range(rng.randrange(1, 3)) if later]
    if not later or rng.randrange(3) == 0:
        instrs.insert(rng.randrange(len(instrs) + 1), ("Accept",))
    return step(rng.randrange(atoms), *instrs) if rng.randrange(5) else [*instrs, ("Stop",)]


def lively_section(rng, atoms):
    """Positions of which the first starts, and of which the last accepts."""
    if rng.randrange(4) == 0:
        return random_section(rng, atoms, rng.randrange(6))
    positions = rng.randrange(1, 6)
    blocks = [lively_block(rng, atoms, it, positions) for it in range(positions)]
    return placed(rng.choice((1, 1, 1, 1, rng.randrange(1 << positions))), *blocks)


class LivelyMaker(Maker):
    """Sample code whose operands are mostly signals and counters, cut or extended to a width."""

    def leaf(self, width):
        widths = self.program.widths()
        if self.rng.randrange(6) == 0:
            return super().leaf(width)
        slot = self.rng.randrange(1, len(widths))
        self.emit(*self.rng.choice((("Load", slot), ("Past", slot, self.rng.randrange(1, 4)))))
        if widths[slot] > width:
            low = self.rng.randrange(widths[slot] - width + 1)
            return self.emit("Slice", low + width - 1, low)
        return self.emit("Zext", width) if widths[slot] < width else None


def lively_code(rng, program):
    """Sample code that stores each counter and sets each atom, to a signal or by all bits of a
    value that the code makes of signals and counters."""
    maker = LivelyMaker(rng, program, [])
    for counter, width in enumerate(program.counters):
        maker.value(width, rng.choice((1, 1, 2)))
        maker.emit("Store", counter)
    for atom in range(program.atoms):
        if rng.randrange(2):
            maker.emit("Load", atom + 1)
        else:
            maker.value(rng.choice(program.widths()[1:]), rng.choice((1, 1, 2)))
            maker.emit(rng.choice(("RedXor", *REDUCES)))
        maker.emit("SetAtom", atom)
    return maker.whole(rng.randrange(3), 1)


def lively_program(rng):
    """A program whose atoms tell much of what its code does."""
    atoms = rng.randrange(1, 5)
    widths = [1] * atoms + rng.choices((1, 2, 8, 64, 65, 127, 128), k=rng.randrange(4))
    signals = [(width, b"s%d" % it) for it, width in enumerate(widths)]
    counters = rng.choices((1, 2, 8, 16, 64, 128), k=rng.randrange(3))
    disable = rng.randrange(atoms) if rng.randrange(4) == 0 else 255
    program = Program(atoms=atoms, signals=signals, counters=counters, disable=disable)
    program.sample = lively_code(rng, program)
    program.antecedent = lively_section(rng, atoms)
    program.consequent = lively_section(rng, atoms)
    return settle(program)


def some_program(rng):
    """A program that is accepted, of any kind that the makers know."""
    if rng.randrange(4):
        program = lively_program(rng)
    else:
        program = random_program(rng, rng.randrange(1, 4), rng.choice((1, 1, 2)))
    if rng.randrange(4) == 0:
        for name in ("history", "stack", "attempts", "obligations", "budget"):
            more = getattr(program, name) + rng.randrange(4)
            setattr(program, name, min(more, MOST[name]))
    return program


def some_first_program(rng):
    """The same of version 2: its antecedent may accept first."""
    return accepting_first(rng, some_program(rng))


def some_value(rng, width):
    """A value that is often at an edge of its width."""
    way = rng.randrange(4)
    if way == 0:
        return rng.randrange(1 << width)
    return rng.choice((0, 0, 1, most(width), 1 << width - 1, most(width) - 1))


def some_column(rng, width, count):
    """The values of a signal: they seldom change, or often, or are seldom 0, or mostly."""
    way, value, values = rng.randrange(4), some_value(rng, width), []
    for _ in range(count):
        if way == 0 and rng.randrange(4) == 0:
            value = some_value(rng, width)
        elif way == 1:
            value = some_value(rng, width)
        elif way > 1:
            common = 0 if way == 2 else most(width)
            value = common if rng.randrange(6) else some_value(rng, width)
        values.append(value)
    return values


def some_rows(rng, program, count):
    made = [some_column(rng, width, count) for width, _ in program.signals]
    return [list(it) for it in zip(*made)] if made else [[] for _ in range(count)]
