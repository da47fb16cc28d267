"""Masks for the bound of a pair, nearly all of which pass: a main that calls, subroutines and handlers that share code.

Each kind has another shape to walk: codes in a row with branches ahead, blocks in any order, branches with two sides each, rows
through nearly every address, and bytes of which any may start an instruction. Loops and HALT come by chance.
"""

import paths  # noqa: F401
from checker_cases import BRANCHES, CALL, EI, JMP, NOP, PLAIN, RET, RETI, to
from reference import MASK

HALT = [0x37, 0x3E]
READS = [0x4C, 0x4D, 0x4E, 0x4F]
NIBBLE = [*range(0x40, 0x47), *range(0x50, 0x70)]       # first bytes that want a nibble as their second
ANYWHERE = [b for b in range(256) if b < JMP + 16 and b not in (0x35, 0x37, *NIBBLE)]     # first bytes that any second byte fits


def code(rng):
    """A code that goes on: of one byte and 1 or 2 cycles, or of two."""
    kind = rng.randrange(8)
    if kind == 0:
        return [rng.choice(READS)]
    if kind == 1:
        return [rng.choice(NIBBLE), rng.randrange(16)]
    if kind == 2:
        return [0x47, rng.randrange(256)]
    return [EI if rng.random() < 0.05 else rng.choice(PLAIN)]


def codes(rng, most):
    return [byte for _ in range(rng.randrange(most + 1)) for byte in code(rng)]


def jump(rng, first, here, target):
    """A jump to a target; where bit 11 keeps a branch from it, a code of the same length."""
    reaches = first >= JMP or (here + 2) % MASK & 0x800 == target & 0x800
    return to(first, target) if reaches else [rng.choice(NIBBLE), rng.randrange(16)]


class Chances:
    """How often a code branches, and whether it may go back or halt."""

    def __init__(self, rng):
        self.branch = rng.choice((0, 0.1, 0.3, 0.6))
        self.back = rng.choice((0, 0, 0.03, 0.1))
        self.halt = rng.choice((0, 0, 0, 0, 0.02, 0.1))


class Program:
    """A mask that grows: what is taken, and where routines may be entered."""

    def __init__(self, rng):
        self.rng = rng
        fill = rng.choice((0x35, NOP, None))
        self.image = bytearray(rng.randbytes(MASK) if fill is None else [fill] * MASK)
        self.free = [(0x010, 0x800), (0x800, MASK)]     # a row within one half has branches to all of it
        self.entries = []

    def put(self, at, values):
        self.image[at:at + len(values)] = bytes(values)
        return at + len(values)

    def place(self, size):
        """Where so many bytes are free; None where there is no such place."""
        room = [(start, end) for start, end in self.free if end - start >= size]
        if not room:
            return None
        start, end = self.rng.choice(room)
        at = self.rng.choice((start, end - size, self.rng.randrange(start, end - size + 1)))
        self.free.remove((start, end))
        self.free += [(start, at), (at + size, end)]
        return at

    def row(self, at, count, chances):
        """So many codes from `at` on and a return; branches and JMPs go ahead, some far, or back by chance."""
        rng, here, plan = self.rng, at, []
        for _ in range(count):
            draw = rng.random()
            one = (None if draw < chances.branch else HALT if draw < chances.branch + chances.halt / 4 else code(rng))
            plan.append((here, one))
            here += 2 if one is None else len(one)
        starts = [start for start, _ in plan] + [here]
        for k, (start, one) in enumerate(plan):
            if one is None:
                far = rng.choice((2, 4, 12, count)) if rng.random() < 0.3 else 4
                aim = starts[min(k + 1 + rng.randrange(far), count)]
                if rng.random() < chances.back:
                    aim = starts[rng.randrange(max(0, k - 8), k + 1)]
                elif self.entries and rng.random() < 0.05:
                    aim = rng.choice(self.entries)
                one = jump(rng, rng.choice(BRANCHES if rng.random() < 0.9 else [JMP]), start, aim)
            self.put(start, one)
        self.put(here, [rng.choice((RET, RETI))])
        return starts

    def rows(self, count, chances):
        at = self.place(2 * count + 1)
        if at is not None:
            starts = self.row(at, count, chances)
            self.entries += [starts[0]] + self.rng.sample(starts, 1)

    def blocks(self, count, chances):
        """Blocks in any order: each goes on to later ones, to code that stands already, or back by chance; the last returns."""
        rng, bodies = self.rng, []
        for _ in range(count):
            body = codes(rng, 4)
            bodies.append(body + HALT if rng.random() < chances.halt else body)
        order = rng.sample(range(count), count)
        start = self.place(sum(len(body) + 4 for body in bodies))
        if start is None:
            return
        at = {}
        for k in order:
            at[k] = start
            start += len(bodies[k]) + 4
        for k, body in enumerate(bodies):
            here = self.put(at[k], body)
            ahead = [at[j] for j in range(k + 1, min(k + 6, count))] + self.entries[:1]
            if not ahead or rng.random() < 0.1:
                self.put(here, [rng.choice((RET, RETI))])
                continue
            back = rng.random() < chances.back
            aim = at[rng.randrange(k + 1)] if back else rng.choice(ahead)
            self.put(here, jump(rng, rng.choice(BRANCHES), here, aim) + to(JMP, rng.choice(ahead)))
        self.entries += [at[0], at[rng.randrange(count)]]

    def diamonds(self, depth):
        """Branches with two sides each: 2 to the depth chains."""
        rng, sides = self.rng, []
        for _ in range(depth):
            sides.append((codes(rng, 3), codes(rng, 3)))
        start = self.place(sum(4 + len(one) + len(other) for one, other in sides) + 1)
        if start is None:
            return
        self.entries.append(start)
        for one, other in sides:
            middle = start + 4 + len(one)
            end = middle + len(other)
            self.put(start, jump(rng, rng.choice(BRANCHES), start, middle) + one + to(JMP, end) + other)
            start = end
        self.put(start, [rng.choice((RET, RETI))])

    def vectors(self):
        """Each vector returns, or goes to a routine; now and then the one at 4 runs into the one at 8."""
        rng = self.rng
        at = self.put(4, [EI] if rng.random() < 0.2 else [])
        kind = rng.randrange(4)
        if kind == 0:
            self.put(at, [rng.choice((RET, RETI))])
        elif kind == 1:
            self.put(at, [rng.choice(PLAIN + READS) for _ in range(8 - at)])
        else:
            self.put(at, to(JMP, rng.choice(self.entries)))
        at = self.put(8, codes(rng, 2))
        if rng.random() < 0.3:
            self.put(at, [rng.choice((RET, RETI))])
        else:
            self.put(at, to(JMP, rng.choice(self.entries)))

    def main(self):
        """EI or none, CALLs of the routines and of the vectors, more than one of some; then all again."""
        rng = self.rng
        calls = rng.choices(self.entries + [4, 8] * (rng.random() < 0.2), k=rng.choice((0, 0, 1, 2, 4, 8)))
        body = [EI] * (rng.random() < 0.75) + [byte for target in calls for byte in codes(rng, 1) + to(CALL, target)]
        body += HALT * (rng.random() < 0.2)
        at = self.place(len(body) + 2)
        if at is None:
            return False
        self.put(self.put(at, body), to(JMP, at))
        self.put(0, to(JMP, at))
        return True


def filled(rng, fill):
    """A mask with the routines that `fill` puts, tried again where there is no place for main."""
    while True:
        program = Program(rng)
        fill(program)
        program.vectors()
        if program.main():
            return bytes(program.image)


def routines(rng):
    def fill(program):
        for _ in range(rng.randrange(1, 6)):
            kind = rng.choice((program.rows, program.blocks))
            kind(rng.choice((1, 3, 10, 40)), Chances(rng))
    return filled(rng, fill)


def deep(rng):
    """At least 60 branches with two sides each in one routine, beside others."""
    def fill(program):
        program.diamonds(rng.randrange(60, 90))
        if rng.random() < 0.5:
            program.rows(20, Chances(rng))
            program.diamonds(rng.randrange(1, 70))
    return filled(rng, fill)


def long(rng):
    """A row through nearly every address, across 7FFh too; half of them with no branch."""
    def fill(program):
        chances = Chances(rng)
        chances.branch, chances.back, chances.halt = rng.choice((0, 0, 0.2)), rng.choice((0, 0, 0.001)), 0
        count = rng.randrange(2500, 2900)
        starts = program.row(0x010, count, chances)
        program.free = [(starts[-1] + 1, MASK)]
        program.entries = [starts[0], starts[rng.randrange(count)]]
    return filled(rng, fill)


def reads(rng):
    """READs through nearly every address: as long as can be."""
    def fill(program):
        end = rng.randrange(0xF00, 0xFC0)
        program.put(0x010, [rng.choice(READS) for _ in range(0x010, end)] + [RET])
        program.free = [(end + 1, MASK)]
        program.entries = [0x010, rng.randrange(0x010, end)]
    return filled(rng, fill)


def chance(rng):
    """Bytes by chance, any of which may start an instruction; many return. Main stands by itself, and may be run into."""
    returns, goes = rng.choice((0.05, 0.1, 0.2)), [b for b in ANYWHERE if b < 0x80]
    image = bytearray(rng.choice((RET, RETI)) if rng.random() < returns
                      else rng.choice(ANYWHERE if rng.random() < 0.3 else goes) for _ in range(MASK))
    body = [EI] + [byte for _ in range(rng.randrange(4)) for byte in to(CALL, rng.randrange(MASK))]
    at = rng.randrange(0x010, MASK - 16)
    body += to(JMP, at)
    image[at:at + len(body)] = bytes(body)
    image[:2] = bytes(to(JMP, at))
    return bytes(image)


KINDS = 12 * [routines] + 3 * [deep] + 4 * [chance] + [long]


def masks(rng):
    """For ever; rows of READs now and then."""
    while True:
        yield reads(rng)
        for _ in range(10):
            for kind in KINDS:
                yield kind(rng)
