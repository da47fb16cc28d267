"""Holds the program readings and the program glass_main to the model of the glass, line by line.

`readings` gets masks that draw pictures by chance, most of them allowed or one place away from it, with
scripts that put the machine to sleep in between, on 3 and 4 commons. `glass_main` gets pictures of which
three digits are by chance and one runs over all 256 values, at each place, and all readings from -1,100
to 11,000 with 0 to 5 digits after the point, drawn and read back. Always the same cases. At the first
difference the case is saved under target/differential and the exit status is 1. Run as a program it
compares these alone. Build them first: tools/build readings glass_main
"""

import collections
import itertools
import random
import re

import paths  # noqa: F401
import glass
import glass_vectors
from comparing import built, compare, start, stop
from glass import DARK, Number
from isa_table import Refused
from make_panel_cases import LONGEST, padded
from make_readings_cases import DRAW, drawing, mask_of
from panel_input import int_pin, pins, power_on, res, run, tmclk, write
from stored import printed

READINGS = built('readings')
GLASS_MAIN = built('glass_main')

MASKS = 40              # with so many pictures each
PICTURES = 100
AROUND = 20             # pictures around each digit that runs over all values
BATCH = 60_000          # cases of one run of glass_main, whose count has two bytes

ALLOWED = list(glass.READINGS)


# ---------------------------------------------------------------------------
# Pictures by chance
# ---------------------------------------------------------------------------

MARKS = [glass.nibbles(lit) for lit in glass.SHAPES.values()]


def any_digit(rng):
    """A shape by chance, at times with a point, a segment away, or anything."""
    first, second = rng.choice(MARKS)
    kind = rng.randrange(8)
    if kind == 0:
        return rng.randrange(16), rng.randrange(16)
    bit = 128 if kind < 3 else 1 << rng.randrange(8) if kind == 3 else 0
    return first ^ bit % 16, second ^ bit // 16


def any_allowed(rng):
    """An allowed picture; of all of them nearly every one has four digits, so that short ones are drawn too."""
    short = [DARK, Number(rng.randrange(-9, 10), 0), Number(rng.randrange(-99, 100), rng.randrange(3))]
    return rng.choice(ALLOWED) if rng.random() < 0.5 else glass.draw(rng.choice(short))


def any_picture(rng):
    """An allowed picture; one with another digit in one place; or four digits by chance."""
    kind = rng.randrange(8)
    if kind == 0:
        return tuple(itertools.chain(*(any_digit(rng) for _ in range(glass.PLACES))))
    picture = any_allowed(rng)
    if kind < 4:
        return picture
    first, second = any_digit(rng)
    return glass_vectors.with_digit(picture, rng.randrange(glass.PLACES), first + 16 * second)


# ---------------------------------------------------------------------------
# `readings`
# ---------------------------------------------------------------------------

def any_case(rng):
    """A mask that draws pictures, at times with a HALT behind one, and a script that shows each."""
    code, script = b'', power_on(commons=rng.choice((3, 4, 4)), fill=rng.choice((0, 0, rng.randrange(16))))
    for _ in range(PICTURES):
        code += drawing(any_picture(rng))
        script += DRAW
        kind = rng.randrange(10)
        if kind == 0:               # asleep, and awake after an edge: interrupts are off
            code += write('HALT')
            script += run(1) + int_pin(0) + int_pin(1)
        elif kind == 1:
            script += rng.choice([pins(*(rng.randrange(16) for _ in range(3))), tmclk(rng.randrange(300)), run(0)])
    script += rng.choice([b'', res(), power_on(fill=6), power_on(commons=3)])
    return mask_of(code), script


def note(met, lines):
    for line in lines:
        met['a number' if re.match(r'-?\d', line) else line] += 1
        met['a minus'] += line.startswith('-')
        met['a point'] += '.' in line


MUST_MEET = {'dark': 300, 'a number': 1000, 'a minus': 100, 'a point': 300, **{f'unreadable at digit {k}': 150 for k in range(glass.PLACES)}}


def compared(name, mask, script):
    lines = glass.readings(mask, script)
    compare(f'readings, {name}', [READINGS], {'mask.bin': mask, 'script.bin': script}, printed(lines))
    return lines


def random_readings():
    """How many lines were compared."""
    rng, met, count = random.Random(1137), collections.Counter(), 0
    for k in range(MASKS):
        mask, script = any_case(rng)
        lines = compared(f'mask {k}', mask, script)
        note(met, lines)
        count += len(lines)
    count += len(compared('the longest script', mask, padded(LONGEST)))
    few = [name for name, many in MUST_MEET.items() if met[name] < many]
    if few:
        stop(f'the readings meet too few of: {", ".join(few)}')
    return count


# ---------------------------------------------------------------------------
# `glass_main`
# ---------------------------------------------------------------------------

def pictures(rng):
    """Three digits by chance, and one that runs over all 256 values, at each place."""
    for k in range(glass.PLACES):
        for _ in range(AROUND):
            around = any_picture(rng)
            for code in range(256):
                yield glass_vectors.to_read(glass_vectors.with_digit(around, k, code))


def readings():
    """Each drawn, and read back where it fits."""
    for value, places in itertools.product(range(-1100, 11001), range(6)):
        reading = Number(value, places)
        yield glass_vectors.to_draw(reading)
        drawn = glass.draw(reading)
        if not isinstance(drawn, Refused):
            yield glass_vectors.to_read(drawn)


def numbers():
    """How many cases were compared."""
    cases, count = itertools.chain(pictures(random.Random(1138)), readings()), 0
    for batch in iter(lambda: list(itertools.islice(cases, BATCH)), []):
        data, output = glass_vectors.written(batch)
        compare(f'glass_main, from case {count} on', [GLASS_MAIN], {'cases.bin': data}, output)
        count += len(batch)
    return count


def compare_all():
    lines, cases = random_readings(), numbers()
    print(f'differential: {lines} lines of readings, {cases} pictures and readings by glass_main, 0 differences')


def main():
    start(READINGS, GLASS_MAIN)
    compare_all()


if __name__ == '__main__':
    main()
