"""Writes the stored input of `readings` and what it must print.

crates/readings has one case: data/mask.bin, data/script.bin and stdout. Each folder of
tests/readings is one more, as in tests/panel. What is expected comes from the models; the lines below
are typed by hand and held to them.
"""

from paths import ROOT
import glass
import reference
import stored
from make_panel_cases import LONGEST, START, padded
from panel_input import int_pin, pins, power_on, record, res, run, tmclk, write

CRATE = ROOT / 'crates' / 'readings'
CASES = ROOT / 'tests' / 'readings'

# ---------------------------------------------------------------------------
# Pictures, and masks that draw them
# ---------------------------------------------------------------------------


def picture(*places):
    """A picture of four places: a character as glass.py writes it, or segments that are no shape, in brackets; each with its
    point or without."""
    out = ()
    for place in places:
        lit, point = place.rstrip('.'), '.' * place.endswith('.')
        out += glass.nibbles((lit[1:-1] if lit.startswith('[') else glass.SHAPES[lit]) + point)
    assert len(out) == glass.PICTURE
    return out


def written(*texts):
    return [glass.picture_of(text) for text in texts]


STEPS = 25          # of a picture
DRAW = run(STEPS)


def drawing(picture, at=0xE0):
    """The code that draws a picture, in STEPS steps."""
    return write('MOV R1R0,XXH', at % 16, at // 16) + b''.join(
        write('MOV A,XH', nibble) + write('MOV [R1R0],A') + write('INC Rn', 0) for nibble in picture)


def mask_of(code):
    assert len(code) <= reference.MASK
    return bytes(code).ljust(reference.MASK, b'\x3e')


def showing(*pictures, after=b''):
    """A mask that draws these pictures one after the other, then runs `after`."""
    return mask_of(b''.join(map(drawing, pictures)) + after)


def sleeper(picture):
    """A mask that draws a picture and sleeps; an edge wakes it, and it sleeps again."""
    code = bytearray(mask_of(write('JMP addr', 0x020)))
    code[0x008:0x009] = write('RETI')
    main = drawing(picture) + write('EI') + write('HALT')
    main += write('JMP addr', 0x020 + len(main) - len(write('HALT')))
    code[0x020:0x020 + len(main)] = main
    return bytes(code)


# ---------------------------------------------------------------------------
# Cases
# ---------------------------------------------------------------------------

# Each with what it guards, in the order of `cases`.
GUARDS = {
    'example': 'crates/readings/data: dark, a number with a minus and a point, an unreadable picture, and dark asleep',
    'numbers': 'leading blanks, a minus directly before the first digit, a point after each digit; each numeral in each place',
    'zeros': 'zeros in front and minus zero are read, and not printed; 0.05 keeps its zero before the point',
    'point-at-the-end': 'a point on the last digit is read, and not printed',
    'asleep': 'HALT is dark, whatever data memory holds; woken by INT and by a pin, the number is back',
    'asleep-unreadable': 'HALT is dark where the picture is unreadable too',
    'three-commons': 'bit 3 is hidden: a point vanishes, a digit with d is no shape, and d alone or a point alone is a blank',
    'four-commons': 'the same pictures with bit 3',
    'filled': 'power-on fills the display too: each nibble with 4 commons, then with 3',
    'other-nibbles': 'display nibbles E8h to FFh, and what is beside E0h, are no part of the picture',
    'every-event': 'each kind of record has its line, and RES keeps the picture',
    'step-by-step': 'a picture while it is drawn: each nibble has its place',
    'faulted': 'a machine that is faulted still shows its picture',
    'unreadable-shape': 'what is no shape, at each digit: 6 without a, 7 with f, 9 without d, and 0 without d',
    'unreadable-points': 'two points, at each pair of digits; a point on a blank and on a minus, at each digit',
    'unreadable-minus': 'a minus two places before a digit, two in a row, behind a digit, and at the last place, where no digit can follow',
    'unreadable-blank': 'a blank behind a digit, at each place',
    'unreadable-first': 'of several faults the leftmost, and the digit behind it where a beginning can still be read',
    'refused-1': 'a mask of 4,095 bytes',
    'refused-1-missing-mask': 'no mask.bin: counts as empty',
    'refused-3': 'nothing is shown of the records before a refused one',
    'refused-4': "commons 5, at its record's offset",
    'refused-6': 'a record cut off',
    'refused-6-too-long': '65,536 bytes',
    'refused-7': 'the unknown kind that ends a script of 65,535 bytes',
    'refused-8': 'a script that does not start with a power-on',
    'refused-8-missing-script': 'no script.bin: counts as empty',
}

EXAMPLE = showing(*written('-1.50'), picture('1', '2', ' ', '3'), after=write('HALT'))
EXAMPLE_SCRIPT = START + 2 * DRAW + run(1)
EXAMPLE_LINES = ['dark', '-1.50', 'unreadable at digit 2', 'dark']

# Pictures as written, with their lines.
NUMBERS = {'0123': '123', '1234': '1234', '2345': '2345', '3456': '3456', '4567': '4567', '5678': '5678', '6789': '6789', '7890': '7890',
           '8901': '8901', '9012': '9012', '   7': '7', '  42': '42', ' 365': '365', '9999': '9999', '  -1': '-1', ' -27': '-27', '-365': '-365',
           '-999': '-999', '1.234': '1.234', '12.34': '12.34', '123.4': '123.4', ' 1.23': '1.23', ' 12.3': '12.3', '  1.2': '1.2',
           '-1.23': '-1.23', '-12.3': '-12.3', ' -4.5': '-4.5'}
ZEROS = {'   0': '0', '0000': '0', ' 007': '7', '0007': '7', '00.50': '0.50', ' 00.5': '0.5', ' 0.05': '0.05', '0.005': '0.005', '0.000': '0.000',
         '  -0': '0', ' -0.0': '0.0', '-0.00': '0.00', '-000': '0', '-007': '-7', '-00.5': '-0.5', ' -0.5': '-0.5', '-0.50': '-0.50',
         '-0.05': '-0.05', '10.00': '10.00'}
POINT_AT_THE_END = {'   5.': '5', '  12.': '12', ' 365.': '365', '1234.': '1234', ' -12.': '-12', '-365.': '-365', '  -0.': '0', '   0.': '0'}

# Pictures, with their lines on 4 and on 3 commons: K is 'unreadable at digit K'.
BIT_THREE = {picture('1', '4.', '7', '1'): ('14.71', '1471'), picture('-', '7.', '1', '4'): ('-7.14', '-714'),
             picture('1.', '4', '4', '4'): ('1.444', '1444'), picture(' ', '1', '2', '3'): ('123', 2), picture(' ', ' ', '-', '0'): ('0', 3),
             picture(' ', ' ', ' ', '6'): ('6', 3), picture('[d]', ' .', '[d].', '7'): (0, '7'), picture('1.', '4.', '7', '7'): (1, '1477'),
             picture(' ', ' ', '-.', '4'): (2, '-4'), picture('[bcd]', '4', '4', '4'): (0, '1444'), picture(*4 * ['[d].']): (0, 'dark'),
             picture('1', '[d]', '1', '1'): (1, 1), picture('5', '1', '1', '1'): ('5111', 0)}

NO_SHAPES = ['[cdefg]', '[abcf]', '[abcfg]', '[abcef]']     # 6 without a, 7 with f, 9 without d, 0 without d

# Unreadable pictures, with their digits.
POINTS = {**{picture(*('4.' if k in pair else '4' for k in range(4))): pair[1] for pair in ((0, 1), (0, 2), (0, 3), (1, 2), (1, 3), (2, 3))},
          picture(' .', ' ', ' ', '4'): 0, picture(' ', ' .', ' ', '4'): 1, picture(' ', ' ', ' .', '4'): 2, picture(' ', ' ', ' ', ' .'): 3,
          picture('-.', '4', '4', '4'): 0, picture(' ', '-.', '4', '4'): 1, picture(' ', ' ', '-.', '4'): 2, picture(' ', ' ', ' ', '-.'): 3}
MINUS = {picture('-', ' ', '4', '4'): 1, picture('-', ' ', ' ', '4'): 1, picture(' ', '-', ' ', '4'): 2, picture('-', '-', '4', '4'): 1,
         picture(' ', '-', '-', '4'): 2, picture('4', '-', '4', '4'): 1, picture('4', '4', '-', '4'): 2, picture('4', '4', '4', '-'): 3,
         picture(' ', ' ', '4', '-'): 3, picture('-', ' ', ' ', ' '): 1, picture(' ', '-', ' ', ' '): 2, picture(' ', ' ', '-', ' '): 3,
         picture(' ', ' ', ' ', '-'): 3}
BLANK = {picture('4', ' ', '4', '4'): 1, picture('4', '4', ' ', '4'): 2, picture('4', '4', '4', ' '): 3, picture('4', ' ', ' ', ' '): 1,
         picture(' ', '4', ' ', ' '): 2, picture(' ', ' ', '4', ' '): 3, picture('4.', ' ', '4', '4'): 1, picture('-', '4', ' ', '4'): 2}
FIRST = {picture('[d]', '-', '4.', '4.'): 0, picture('4', '[d]', '4.', '4.'): 1, picture('4.', '4.', ' ', '-'): 1,
         picture('-', '-', '[d]', ' .'): 1, picture(' ', '-', '[d]', '4'): 2, picture(' ', '-.', '[d]', '4'): 1, picture('4.', '4', '4.', '[d]'): 2,
         picture(' ', ' ', '-', '[d]'): 3}


def unreadable(digit):
    return f'unreadable at digit {digit}'


def shown(pictures, lines, start=START):
    """Mask, script and lines of a case that draws these pictures; the line of power-on, which shows nothing, is the first."""
    return showing(*pictures), start + len(pictures) * DRAW, ['dark', *(unreadable(one) if isinstance(one, int) else one for one in lines)]


def as_written(table):
    return shown(written(*table), table.values())


def cases():
    """Name, mask, script (None: the file is missing) and the lines, typed by hand."""
    yield 'example', EXAMPLE, EXAMPLE_SCRIPT, EXAMPLE_LINES
    yield 'numbers', *as_written(NUMBERS)
    yield 'zeros', *as_written(ZEROS)
    yield 'point-at-the-end', *as_written(POINT_AT_THE_END)
    asleep = run(1) + DRAW + run(9), int_pin(0) + run(2) + run(9) + int_pin(1), pins(14, 15, 15) + run(9)
    yield 'asleep', sleeper(picture(' ', '-', '2', '7')), power_on(wake_pm=1) + b''.join(asleep), [
        'dark', 'dark', '-27', 'dark', '-27', '-27', 'dark', 'dark', '-27', 'dark']
    yield 'asleep-unreadable', sleeper(picture('7', ' ', ' ', ' ')), power_on(wake_pm=1) + b''.join(asleep), [
        'dark', 'dark', unreadable(1), 'dark', unreadable(1), unreadable(1), 'dark', 'dark', unreadable(1), 'dark']
    yield 'three-commons', *shown(BIT_THREE, [three for _, three in BIT_THREE.values()], power_on(commons=3))
    yield 'four-commons', *shown(BIT_THREE, [four for four, _ in BIT_THREE.values()])
    yield 'filled', mask_of(b''), b''.join(power_on(commons=commons, fill=fill) for commons in (4, 3) for fill in range(16)), [
        *['dark', *5 * [unreadable(0)], '4444', *8 * [unreadable(0)], unreadable(1)],
        *2 * ['dark', *5 * [unreadable(0)], '4444', unreadable(0)]]
    others = [drawing(picture(*'8888'), at) for at in (0xE8, 0xF0, 0xF8, 0x78, 0xD8)]
    yield 'other-nibbles', mask_of(b''.join([*others, *map(drawing, written('1234')), *others])), START + 11 * DRAW, 6 * ['dark'] + 6 * ['1234']
    yield 'every-event', showing(*written('12.34')), (
        START + DRAW + pins(0, 0, 0) + int_pin(0) + tmclk(9) + int_pin(1) + res() + power_on() + run(0) + DRAW), [
        'dark', *6 * ['12.34'], 'dark', 'dark', '12.34']
    yield 'step-by-step', showing(*written('-0.50')), START + run(1) + 8 * run(3), [
        'dark', 'dark', 'dark', *map(unreadable, (1, 1, 2, 2, 3, 3)), '-0.50']
    yield 'faulted', showing(*written(' -42'), after=b'\x35'), START + DRAW + run(9) + int_pin(0) + run(9) + res(), ['dark', *5 * ['-42']]
    shapes = {picture(*k * '4', wrong, *(3 - k) * '4'): k for k in range(4) for wrong in NO_SHAPES}
    for name, table in (('shape', shapes), ('points', POINTS), ('minus', MINUS), ('blank', BLANK), ('first', FIRST)):
        yield f'unreadable-{name}', *shown(table, table.values())

    yield 'refused-1', EXAMPLE[:-1], EXAMPLE_SCRIPT, ['refused 1 at 0']
    yield 'refused-1-missing-mask', None, EXAMPLE_SCRIPT, ['refused 1 at 0']
    yield 'refused-3', EXAMPLE, START + DRAW + pins(16, 0, 0) + run(1), ['refused 3 at 16']
    yield 'refused-4', EXAMPLE, START + DRAW + power_on(commons=5), ['refused 4 at 16']
    yield 'refused-6', EXAMPLE, START + DRAW + DRAW[:-1], ['refused 6 at 16']
    yield 'refused-6-too-long', EXAMPLE, padded(LONGEST + 1), ['refused 6 at 0']
    yield 'refused-7', EXAMPLE, padded(LONGEST, record(7)), ['refused 7 at 65531']
    yield 'refused-8', EXAMPLE, DRAW + START, ['refused 8 at 0']
    yield 'refused-8-missing-script', EXAMPLE, None, ['refused 8 at 0']


def expected(mask, script, lines):
    assert glass.readings(mask or b'', script or b'') == lines, (glass.readings(mask or b'', script or b''), lines)
    return stored.printed(lines)


def readme():
    names = [case[0] for case in cases()]
    assert names == list(GUARDS), 'a case without what it guards, or the other way round'
    head = ('# Stored cases of `readings`\n\nEach folder is one case: `mask.bin`, `script.bin` and what the program must print, `expected`. A file '
            '`missing` names\na file that is left out. `tools/make/make_readings_cases.py` makes them all, this page too; '
            '`tools/compare/differential.py` runs them.\n`docs/SCRIPT.md` has the format.\n')
    return stored.page(head, GUARDS.items())


def files():
    """All that is stored, as a dict from paths to bytes."""
    result = {CRATE / 'data' / 'mask.bin': EXAMPLE, CRATE / 'data' / 'script.bin': EXAMPLE_SCRIPT,
              CRATE / 'stdout': expected(EXAMPLE, EXAMPLE_SCRIPT, EXAMPLE_LINES), CASES / 'README.md': readme()}
    for name, mask, script, lines in cases():
        result |= stored.case_files(CASES / name, {'mask.bin': mask, 'script.bin': script, 'expected': expected(mask, script, lines)})
    return result


if __name__ == '__main__':
    stored.write_files(files())
