"""Plain checks of glass.py: document 02's sentences on the reading, and cases of our own where they
leave room. A picture is typed as its eight nibbles, one hexadecimal digit each, so that the shapes
are here a second time. Prints 'N checks passed'."""

import itertools
import re
from dataclasses import replace

import glass
import reference
from glass import DARK, Number
from isa_table import Refused

checks = 0

# 0 to 9, with the point off and on; a blank is 00, a minus 04.
DIGITS = 'F3 60 B5 F4 66 D6 D7 70 F7 F6'.split()
POINTED = 'FB 68 BD FC 6E DE DF 78 FF FE'.split()


def same(got, want, what):
    global checks
    assert got == want, f'{what}: got {got!r}, want {want!r}'
    checks += 1


def picture(typed):
    return tuple(int(digit, 16) for digit in typed.replace(' ', ''))


def reads(typed, value, places, text):
    """The picture reads as this number, and is written so."""
    seen = glass.read(picture(typed))
    same(seen, Number(value, places), typed)
    same(glass.text(seen), text, typed)


def unreadable(digit, *pictures):
    for typed in pictures:
        same(glass.read(picture(typed)), Refused(16, digit), typed)


def draws(value, places, typed):
    same(glass.draw(Number(value, places)), picture(typed), (value, places))


def does_not_fit(places, *values):
    for value in values:
        same(glass.draw(Number(value, places)), Refused(16, 0), (value, places))


# --- Reading ----------------------------------------------------------------

def test_shapes():
    for digit in range(10):
        reads('000000' + DIGITS[digit], digit, 0, str(digit))
        reads('000000' + POINTED[digit], digit, 0, str(digit))
    shapes = DIGITS + POINTED + ['00']
    for code in range(256):                             # at the right, after blanks, nothing else is read
        if f'{code:02X}' not in shapes:
            unreadable(3, f'000000{code:02X}')
    unreadable(3, '000000C7', '00000072', '00000076', '00000067')      # 6 without a; 7 with f; 7 with f, g; 9 without d
    unreadable(0, 'C7606060', '72606060', '67606060')


def test_numbers():
    same(glass.read(picture('00000000')), DARK, 'all blank')
    same(glass.text(DARK), 'dark', 'all blank')
    reads('60B5F466', 1234, 0, '1234')
    reads('60BDF466', 1234, 2, '12.34')
    reads('68B5F466', 1234, 3, '1.234')
    reads('60B5FC66', 1234, 1, '123.4')
    reads('60B5F46E', 1234, 0, '1234')                  # a point on the last digit
    reads('0060B5F4', 123, 0, '123')
    reads('000060B5', 12, 0, '12')
    reads('0460B5F4', -123, 0, '-123')
    reads('0468B5F4', -123, 2, '-1.23')
    reads('000460B5', -12, 0, '-12')
    reads('000468B5', -12, 1, '-1.2')
    reads('00000460', -1, 0, '-1')
    reads('00000468', -1, 0, '-1')
    reads('F6F6F6F6', 9999, 0, '9999')
    reads('04F6F6F6', -999, 0, '-999')


def test_zeros():
    reads('00F3F370', 7, 0, '7')                        # 007
    reads('F3F3F370', 7, 0, '7')
    reads('00F3FBD6', 5, 1, '0.5')                      # 00.5
    reads('00FBF3D6', 5, 2, '0.05')
    reads('FBF3F3D6', 5, 3, '0.005')
    reads('04FBD6F3', -50, 2, '-0.50')
    reads('000004F3', 0, 0, '0')                        # -0
    reads('000004FB', 0, 0, '0')
    reads('0004FBF3', 0, 1, '0.0')                      # -0.0
    reads('04FBF3F3', 0, 2, '0.00')
    reads('04F3F3F3', 0, 0, '0')
    reads('FBF3F3F3', 0, 3, '0.000')


def test_points():
    unreadable(1, '6868F466', '686860B5')               # two points
    unreadable(2, '60BDFC66', '0068FC66', '0468FC66')
    unreadable(3, '60BDF46E', '0000686E', '68B5F46E')
    unreadable(0, '08000060', '08606060', '08000000')   # on a blank
    unreadable(1, '00080060', '00086060', '60086060')
    unreadable(2, '00000860', '0000086E')
    unreadable(3, '00000008')
    unreadable(0, '0C606060', '0C686060')               # on a minus
    unreadable(1, '000C6060')
    unreadable(2, '00000C60')
    unreadable(3, '0000000C')


def test_minus():
    unreadable(1, '04000060', '04006060', '04000000', '04046060', '04040460')      # two before the first digit; a second minus
    unreadable(2, '00040060', '00040000', '00040460', '0004C760')
    unreadable(3, '00000400', '00000404', '000004C7')
    unreadable(3, '00000004')                           # no digit can follow
    unreadable(1, '60046060', '60040000')               # after a digit
    unreadable(2, '60600460')
    unreadable(3, '60606004', '04606004')


def test_blanks():
    unreadable(1, '60000000', '60006060', '68000000')   # after a digit
    unreadable(2, '60600060', '00600060', '00600000', '04600060')
    unreadable(3, '60606000', '00606000', '00006000', '04606000')
    unreadable(1, '60C70000', '04C76060')               # the leftmost fault, whatever follows
    unreadable(0, 'C7C76008', '01000000', '40606060')


def test_lengths_and_nibbles():
    for count in (0, 1, 2, 4, 7, 9, 16):
        same(glass.read([0] * count), Refused(2), f'{count} nibbles')
        same(glass.read([16] * count), Refused(2), f'{count} nibbles over 15')
    for at in range(8):
        for over in (16, 17, 31, 32, 128, 255):
            for other in ('60B5F466', '00000000', 'C7606060', '68686868'):         # 3 goes before 16
                broken = list(picture(other))
                broken[at] = over
                same(glass.read(broken), Refused(3), broken)


# --- Drawing ----------------------------------------------------------------

def test_draw():
    same(glass.draw(DARK), picture('00000000'), DARK)
    draws(0, 0, '000000F3')
    draws(7, 0, '00000070')
    draws(9, 0, '000000F6')
    draws(10, 0, '000060F3')
    draws(99, 0, '0000F6F6')
    draws(100, 0, '0060F3F3')
    draws(999, 0, '00F6F6F6')
    draws(1000, 0, '60F3F3F3')
    draws(9999, 0, 'F6F6F6F6')
    draws(1234, 2, '60BDF466')
    draws(1234, 1, '60B5FC66')
    draws(1234, 3, '68B5F466')
    draws(-1, 0, '00000460')
    draws(-12, 1, '000468B5')
    draws(-999, 0, '04F6F6F6')
    draws(-999, 2, '04FEF6F6')
    draws(0, 1, '0000FBF3')                             # one before any point
    draws(5, 1, '0000FBD6')
    draws(5, 2, '00FBF3D6')
    draws(5, 3, 'FBF3F3D6')
    draws(-5, 1, '0004FBD6')
    draws(-50, 2, '04FBD6F3')
    draws(0, 3, 'FBF3F3F3')
    draws(8888, 3, 'FFF7F7F7')


def test_does_not_fit():
    does_not_fit(0, 10000, 99999, 2 ** 31 - 1, -1000, -9999, -2 ** 31)
    does_not_fit(1, 10000, -1000)
    does_not_fit(3, 10000, -1, -999)
    does_not_fit(4, 0, 1, -1, 9999)                     # 0.0001
    does_not_fit(5, 0, 1)
    does_not_fit(255, 0, 1, -1)


def test_draw_lengths():
    for count in (0, 7, 9):
        for reading in (DARK, Number(5, 0), Number(-1000, 0)):      # 2 goes before 16
            same(glass.draw(reading, bytes(count)), Refused(2), (reading, count))


# --- There and back ---------------------------------------------------------

def fits(value, places):
    """The fewest n with |value| < 10^n and places < n, and 1 for a minus, are at most 4."""
    n = 1
    while not (abs(value) < 10 ** n and places < n):
        n += 1
    return n + (value < 0) <= 4


def test_drawn_reads_back():
    seen = set()
    for value in range(-1100, 11001):
        for places in range(6):
            reading = Number(value, places)
            drawn = glass.draw(reading)
            if not fits(value, places):
                same(drawn, Refused(16), reading)
                continue
            same(glass.read(drawn), reading, reading)
            seen.add(reading)
    same(len(seen), 40_000 + 999 * 3, 'readings that fit')
    same(seen | {DARK}, set(glass.READINGS.values()), 'what can be read is what fits')


def test_read_draws_back():
    """Every allowed picture, drawn again, reads the same; drawn is the one of that reading with the fewest digits
    and marks beside them: the pictures of a reading differ by zeros in front, a point at the end, and a minus of 0."""
    fewest = {}
    for one, reading in glass.READINGS.items():
        drawn = glass.draw(reading)
        same(glass.read(drawn), reading, one)
        lit = sum(map(any, zip(one[::2], one[1::2]))), sum(map(int.bit_count, one))
        fewest[reading] = min(fewest.get(reading, (lit, one)), (lit, one))
    for reading, (_, one) in fewest.items():
        same(glass.draw(reading), one, reading)
    same(len(glass.READINGS), 1 + 5 * 10_000 + 8 * 1000 + 6 * 100 + 4 * 10, 'allowed pictures')


# A picture as characters, one for each place: a point in brackets, ? for what is no shape.
SHAPES = {' ': '00', '-': '04', '4': '66', '0': 'F3', '?': 'C7', '(4)': '6E', '(0)': 'FB', '( )': '08', '(-)': '0C'}
ALLOWED = re.compile(r' *| *-?\d*(\(\d\))?\d*(?<=[\d)])')


def test_every_arrangement():
    """The digit of a refusal, from an expression for allowed pictures in place of a list of them."""
    allowed = {places for places in itertools.product(SHAPES, repeat=4) if ALLOWED.fullmatch(''.join(places))}
    beginnings = {places[:end] for places in allowed for end in range(5)}
    same(len(allowed), 1 + 16 * 5 + 2 * 8 * 4 + 2 * 4 * 3 + 2 * 2 * 2, 'arrangements')
    for places in itertools.product(SHAPES, repeat=4):
        seen = glass.read(picture(''.join(SHAPES[place] for place in places)))
        wrong = next((k for k in range(4) if places[:k + 1] not in beginnings), None)
        same(seen.offset if isinstance(seen, Refused) else None, wrong, places)


# --- Over the engine --------------------------------------------------------

OPTIONS = reference.Options(rate=2, commons=4, wake_pm=0, wake_ps=0, wake_pp=0)


def machine(typed, options=OPTIONS, **values):
    """A machine with this picture in E0h to E7h, and other nibbles lit beside it."""
    data = [15] * 128 + list(picture(typed)) + [15] * 24
    return replace(reference.power_on(options, [0] * 6 + data), **values)


def test_machines():
    three = replace(OPTIONS, commons=3)
    same(glass.reading_of(machine('04FBD6F3')), Number(-50, 2), 'a number')
    same(glass.reading_of(machine('00000000')), DARK, 'blank')
    same(glass.reading_of(machine('60B5F466', halted=1)), DARK, 'asleep')
    same(glass.reading_of(machine('C7B5F466', halted=1)), DARK, 'asleep, and unreadable')
    same(glass.reading_of(machine('60B5F466', fault=1)), Number(1234, 0), 'with a fault')
    same(glass.reading_of(machine('60660004')), Refused(16, 2), 'unreadable')
    same(glass.reading_of(machine('606E6670', three)), Number(1447, 0), 'no point on three commons')
    same(glass.reading_of(machine('60F46070', three)), Refused(16, 1), 'no d on three commons')
    same(glass.reading_of(machine('08000870', three)), Number(7, 0), 'no points of blanks on three commons')
    same(glass.reading_of(machine('00000800', three)), DARK, 'all is in bit 3')
    same(glass.reading_of(machine('C7606060', pc=4096)), Refused(5), 'out of range')
    same(glass.reading_of(machine('60606060', halted=1, fault=1)), Refused(5), 'halted with a fault')


def test_program():
    """MOV R1R0,E7H; MOV A,6; MOV [R1R0],A; HALT: nibble 7 alone is no shape, then all is dark."""
    mask = bytes.fromhex('57 0E 76 05 37 3E').ljust(4096, b'\x3E')
    start, run, res = bytes.fromhex('06000100020400000000'), bytes.fromhex('020002000300'), bytes.fromhex('00000600')
    same(glass.readings(mask, start + run + run + res), ['dark', 'unreadable at digit 3', 'dark', 'unreadable at digit 3'], 'a script')
    same(glass.readings(mask, start + run + b'\1'), ['refused 6 at 16'], 'a record cut off')
    same(glass.readings(mask[1:], start), ['refused 1 at 0'], 'a short mask')
    filled = start[:-1] + b'\x06'                       # every nibble 6: four times b, c, f, g
    same(glass.readings(mask, filled), ['4444'], 'filled')


for name, test in list(globals().items()):
    if name.startswith('test_'):
        test()
print(f'{checks} checks passed')
