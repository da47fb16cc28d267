"""Writes the input and the expected output of glass_main.

data/cases.bin has pictures to read and readings to draw, crates/glass_main/src/main.rt its format.
stdout is what the model of the glass answers. Each group of cases says what it tells apart; what the
cases meet is counted and must be enough.
"""

import collections
import itertools

from paths import ROOT
import glass
import stored
from glass import DARK, Number
from isa_table import Refused
from panel_input import two

CRATE = ROOT / 'crates' / 'glass_main'

ROOM = 9            # the longest picture of a case
KEPT = b'\xff'      # each byte of a picture before a reading is drawn on it

# Values that have a sort of their own: low 16 bits that would fit, and the ends of 32 bits.
LARGE = {65541: 3, -65541: 4, 2 ** 31 - 1: 5, -2 ** 31: 6}

seen = collections.Counter()


# ---------------------------------------------------------------------------
# A case: its bytes and its line
# ---------------------------------------------------------------------------

def shown(reading):
    return DARK if reading == DARK else f'{reading.value} {reading.places}'


def answered(answer):
    """A picture's answer as glass_main prints it."""
    if not isinstance(answer, Refused):
        return f'{shown(answer)}: {glass.text(answer)}'
    return f'refused {answer.number}' + (f' at digit {answer.offset}' if answer.number == glass.UNREADABLE else '')


def to_read(picture):
    picture = bytes(picture)
    answer = answered(glass.read(picture))
    seen['read ' + (answer if answer.startswith('refused') or answer.startswith(DARK) else 'a number')] += 1
    return bytes([0, len(picture)]) + picture.ljust(ROOM, b'\0'), f'read {picture.hex()}: {answer}'


def to_draw(reading, length=glass.PICTURE):
    before = KEPT * length
    drawn = glass.draw(reading, before)
    number, after = (drawn.number, before) if isinstance(drawn, Refused) else (0, bytes(drawn))
    seen[f'draw {number}'] += 1
    value, places = (0, 0) if reading == DARK else reading
    sort, size = (0, 0) if reading == DARK else (LARGE[value], 0) if value in LARGE else (1 + (value < 0), abs(value))
    return bytes([1, length, sort]) + two(size) + bytes([places]), f'draw {shown(reading)} on {length}: {number} {after.hex()}'


# ---------------------------------------------------------------------------
# Pictures
# ---------------------------------------------------------------------------

def with_digit(picture, k, code):
    """The picture with another digit in place k, its two nibbles in one byte."""
    return picture[:2 * k] + (code % 16, code // 16) + picture[2 * k + 2:]


# Blanks, digits, a minus and a point around the place that runs over all 256 values; minus zero.
AROUND = ['    ', '8765', '-407', ' 1.59', '   6', '  -0.']


def every_value():
    """Each shape with and without its point, and everything that is none, in each place."""
    for written in AROUND:
        for k in range(glass.PLACES):
            for code in range(256):
                yield to_read(with_digit(glass.picture_of(written), k, code))


def arrangements():
    """Blanks, minuses, digits, points and what is no shape, in every order: where a refusal is, and of two faults which."""
    no_shape = (15, 1)      # a, b, c, d, e
    kinds = [glass.nibbles(glass.SHAPES[one]) for one in ' -4'] + [glass.nibbles(glass.SHAPES['0'] + '.'), no_shape]
    for digits in itertools.product(kinds, repeat=glass.PLACES):
        yield to_read(itertools.chain(*digits))


def over_fifteen():
    """A nibble over 15 beside a picture that is allowed, and beside faults before and behind it; its low four bits may be
    what was there."""
    no_shape, lone_point = 0x08, 0x80
    for written, *faults in (['1.234'], ['  -5'], ['    '], ['8888', (0, no_shape)], ['8888', (3, no_shape)], ['8888', (0, lone_point)],
                             ['8888', *((k, no_shape) for k in range(4))]):
        picture = glass.picture_of(written)
        for k, code in faults:
            picture = with_digit(picture, k, code)
        for at in range(glass.PICTURE):
            for over in (16, 16 + picture[at], 128 + picture[at], 255):
                yield to_read(picture[:at] + (over,) + picture[at + 1:])


def other_lengths():
    """2 goes before 3 and 16."""
    for length in [*range(8), 9]:
        for written in ('8888', '    '):
            yield to_read((glass.picture_of(written) * 2)[:length])
        for filled in (1, 16):
            yield to_read([filled] * length)


# ---------------------------------------------------------------------------
# Readings
# ---------------------------------------------------------------------------

# Every number of digits from its first to its last value; values with each numeral.
SIZES = [0, 1, 5, 9, 10, 11, 50, 99, 100, 101, 500, 999, 1000, 1001, 1234, 5000, 5678, 9000, 9998, 9999, 10000, 10001, 12345, 32768, 65535]
PLACES = [0, 1, 2, 3, 4, 5, 255]


def readings():
    """Around every limit, both signs, with every count of digits after the point; what is drawn is read as well."""
    values = sorted({sign * size for size in SIZES for sign in (1, -1)} | set(LARGE))
    for value, places in itertools.product(values, PLACES):
        reading = Number(value, places)
        yield to_draw(reading)
        drawn = glass.draw(reading)
        if not isinstance(drawn, Refused):
            yield to_read(drawn)


def readings_on_other_lengths():
    """2 goes before 16, and nothing is drawn."""
    for reading in (DARK, Number(5, 0), Number(-50, 2), Number(9999, 3), Number(-1000, 0), Number(1, 4)):
        for length in range(10):
            yield to_draw(reading, length)


# ---------------------------------------------------------------------------
# The files
# ---------------------------------------------------------------------------

ENOUGH = {'read dark: dark': 5, 'read a number': 400, 'read refused 2': 30, 'read refused 3': 100,
          **{f'read refused 16 at digit {k}': 500 for k in range(4)}, 'draw 0': 60, 'draw 2': 50, 'draw 16': 200}


def written(cases):
    """What cases.bin has for these cases, and what glass_main must print of them."""
    return two(len(cases)) + b''.join(case for case, _ in cases), stored.printed(line for _, line in cases)


def files():
    """All that is stored, as a dict from paths to bytes."""
    seen.clear()
    cases = [case for part in (every_value, arrangements, over_fifteen, other_lengths, readings, readings_on_other_lengths) for case in part()]
    few = {what: seen[what] for what, least in ENOUGH.items() if seen[what] < least}
    assert not few, few
    assert set(seen) == set(ENOUGH), seen
    data, output = written(cases)
    print(f'cases {len(cases)}; cases.bin {len(data)} bytes, stdout {len(output)} bytes; {dict(seen)}')
    return {CRATE / 'data' / 'cases.bin': data, CRATE / 'stdout': output}


if __name__ == '__main__':
    stored.write_files(files())
