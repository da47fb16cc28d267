"""What an operator reads on the glass: document 02, wish 7.

The allowed pictures are all written out, each with its reading, in the order of the request's
sentences, and a picture is looked up among them; a refused one has its digit by the request's own
words, from their beginnings. The proved one walks a picture from the left.

Run as a program it is `readings`: it reads mask.bin and script.bin.
"""

import functools
import itertools
from typing import NamedTuple

import reference
from isa_table import Refused

PLACES = 4          # digits of the glass
PICTURE = 2 * PLACES
UNREADABLE = 16     # the refusal, with a digit

# 'nibbles 2k (segments a, b, c, d in bits 0 to 3) and 2k+1 (e, f, g in bits 0 to 2, point after the digit in bit 3)'
FIRST, SECOND = 'abcd', 'efg.'

# 'the usual shapes of 0 to 9: 6 has a, 7 is a, b, c, and 9 has d'
SHAPES = {'0': 'abcdef', '1': 'bc', '2': 'abdeg', '3': 'abcdg', '4': 'bcfg',
          '5': 'acdfg', '6': 'acdefg', '7': 'abc', '8': 'abcdefg', '9': 'abcdfg',
          ' ': '', '-': 'g'}    # a blank, 'and one g alone as minus'

DARK = 'dark'


class Number(NamedTuple):
    """'a signed whole number and the count of digits after the point'."""
    value: int
    places: int


# ---------------------------------------------------------------------------
# Pictures, as written
# ---------------------------------------------------------------------------

@functools.cache
def nibbles(lit):
    """The two nibbles of a digit with these segments and points lit."""
    return tuple(sum(1 << bit for bit, segment in enumerate(half) if segment in lit) for half in (FIRST, SECOND))


def picture_of(written):
    """The picture of four places written as characters; a point belongs to the one before it."""
    digits = []
    for character in written:
        if character == '.':
            digits[-1] += character
        else:
            digits.append(SHAPES[character])
    assert len(digits) == PLACES, written
    return tuple(nibble for lit in digits for nibble in nibbles(lit))


def number(minus, digits, point):
    """What is read of digits with a point after so many of them; None for no point. 'Minus zero reads as 0'."""
    size = int(digits)
    return Number(-size if minus else size, 0 if point is None else len(digits) - point)


def allowed():
    """Every picture that is allowed, as written, with its reading."""
    yield ' ' * PLACES, DARK                                # "'dark' when all is blank"
    for minus in ('', '-'):                                 # 'one g alone as minus directly before the first digit'
        for count in range(1, PLACES + 1 - len(minus)):
            blanks = ' ' * (PLACES - count - len(minus))    # 'Leading blanks are allowed'
            for digits in map(''.join, itertools.product('0123456789', repeat=count)):
                yield blanks + minus + digits, number(minus, digits, None)
                for point in range(1, count + 1):           # 'At most one point is lit, and only on a digit'
                    yield blanks + minus + digits[:point] + '.' + digits[point:], number(minus, digits, point)


READINGS = {picture_of(written): reading for written, reading in allowed()}
BEGINNINGS = {picture[:end] for picture in READINGS for end in range(0, PICTURE + 1, 2)}


# ---------------------------------------------------------------------------
# Reading and drawing
# ---------------------------------------------------------------------------

def read(picture):
    """'3 for a picture nibble over 15; then 16 for any picture not allowed here, with the leftmost digit that no
    valid picture with the same digits before it has'; 2 for another length, before them."""
    picture = tuple(picture)
    if len(picture) != PICTURE:
        return Refused(2)
    if any(nibble > 15 for nibble in picture):
        return Refused(3)
    if picture in READINGS:
        return READINGS[picture]
    return Refused(UNREADABLE, next(k for k in range(PLACES) if picture[:2 * k + 2] not in BEGINNINGS))


def text(reading):
    """A reading as a person writes it: 'the fewest digits, at least one, and one before any point'."""
    if reading == DARK:
        return DARK
    digits = str(abs(reading.value)).rjust(reading.places + 1, '0')
    whole = len(digits) - reading.places
    point = '.' if reading.places else ''                   # 'count 0 lights no point'
    return ('-' if reading.value < 0 else '') + digits[:whole] + point + digits[whole:]


def draw(reading, picture=bytes(PICTURE)):
    """The picture after drawing on one: 'at the right'; 2 for another length, '16 with digit 0 when a reading to
    draw does not fit'."""
    if len(picture) != PICTURE:
        return Refused(2)
    written = '' if reading == DARK else text(reading)      # "'dark' is drawn blank"
    blanks = PLACES - len(written.replace('.', ''))
    return picture_of(' ' * blanks + written) if blanks >= 0 else Refused(UNREADABLE)


# ---------------------------------------------------------------------------
# Over the engine
# ---------------------------------------------------------------------------

def picture_in(report):
    """'Digit k .. uses display nibbles 2k .. and 2k+1': those of a report, whose display starts at byte 16."""
    return report[16:16 + PICTURE]


def reading_of(machine):
    """What is seen of a machine; 5 for one out of range."""
    report = reference.report(machine)
    return report if isinstance(report, Refused) else read(picture_in(report))


def line(seen):
    """The line of `readings` for what is seen."""
    return f'unreadable at digit {seen.offset}' if isinstance(seen, Refused) else text(seen)


def readings(mask, script):
    """The lines of `readings`: what is seen after each record, or one line `refused N at P`, as `panel` prints it."""
    lines = reference.panel(mask, script)
    if lines[0].startswith('refused'):
        return lines
    return [line(read(picture_in(bytes.fromhex(one)))) for one in lines]


if __name__ == '__main__':
    for output in readings(reference.read_file('mask.bin'), reference.read_file('script.bin')):
        print(output)
