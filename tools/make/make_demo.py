"""Writes the demonstration: demo/mask.bin, demo/script.bin, and demo/expected by the reference model;
then demo/forbidden.bin and demo/forbidden, a mask that fails and what `checkmask` says of it; and of
demo/pump.asm, a text by hand, the mask that `assemble` makes, demo/pump.bin, a script for it,
demo/pump_script.bin, and demo/pump_expected; and the same of demo/gauge.asm, with what `readings` prints.

The panel counts pulses on INT. Its digit is on the display: segments a, b, c, d are bits 0 to 3 of
E0h, segments e, f, g bits 0 to 2 of E1h. A pulse wakes it; some time after the last one its timer
sends it back to sleep. From 9 it goes to 0, with a sound.

The pump doses: a press of the button, PM bit 0, starts it (PA bit 0), each stroke is a pulse on INT,
and after five it stops. If strokes stay away, the timer trips it: PA bit 3 and a sound. Its digit is
the count of strokes. The text has no comments and no data: a label before ORG names a number, and a
table's bytes are written as the instructions that have these codes.

The gauge shows a pressure in bars on all four digits, from 1.50 down: each edge on INT lets out half a
bar, and at -1.00 nothing is left. A press of the button, PM bit 0, puts it to sleep, and the next one
wakes it; the edge that wakes it lets out nothing.
"""

from paths import ROOT
import assembler
import glass
import reference
import stored
from make_checkmask_cases import shortest_ways
from panel_input import assemble, int_pin, pins, power_on, run

FOLDER = ROOT / 'demo'
PUMP = FOLDER / 'pump.asm'
GAUGE = FOLDER / 'gauge.asm'

# Segments of each digit, bit 0 for a to bit 6 for g.
SEGMENTS = [0x3F, 0x06, 0x5B, 0x4F, 0x66, 0x6D, 0x7D, 0x07, 0x7F, 0x6F]

# Data memory: the count at 00h, and at 01h whether the time is up. R3R2 belongs to the handlers,
# which keep ACC in 02h.
PROGRAM = {
    0x000: [('JMP addr', 'main')],
    0x004: [('JMP addr', 'time up')],
    0x008: [('JMP addr', 'pulse')],
    0x010: ['main',
            ('EI',),
            'wake',
            ('MOV R1R0,XXH', 0x1, 0x0), ('MOV A,XH', 0), ('MOV [R1R0],A',),    # the time is not up
            ('TIMER XXH', 0xC0), ('TIMER ON',),
            'show',
            ('CALL addr', 'digit'),
            ('MOV R1R0,XXH', 0x1, 0x0), ('MOV A,[R1R0]',),
            ('JZ A,addr', 'show'),
            ('TIMER OFF',), ('SOUND OFF',),
            ('HALT',),
            ('JMP addr', 'wake')],
    0x100: ['digit',            # the segments of the count, by the table in page 15
            ('MOV R1R0,XXH', 0x0, 0x0), ('MOV A,XH', 0), ('READF R4A',),
            ('MOV R1R0,XXH', 0x0, 0xE), ('MOV [R1R0],A',),
            ('INC Rn', 0), ('MOV A,Rn', 4), ('MOV [R1R0],A',),
            ('RET',)],
    0x180: ['time up',
            ('MOV R3R2,XXH', 0x2, 0x0), ('MOV [R3R2],A',),
            ('MOV R3R2,XXH', 0x1, 0x0), ('MOV A,XH', 1), ('MOV [R3R2],A',),
            ('JMP addr', 'back')],
    0x1C0: ['pulse',            # one more, in decimal
            ('MOV R3R2,XXH', 0x2, 0x0), ('MOV [R3R2],A',),
            ('MOV R3R2,XXH', 0x0, 0x0), ('MOV A,[R3R2]',),
            ('ADD A,XH', 1), ('DAA',), ('MOV [R3R2],A',),
            ('JNC addr', 'no carry'),
            ('SOUND ONE',), ('SOUND n', 5),
            'no carry',
            ('TIMER XXH', 0xC0),
            'back',
            ('MOV R3R2,XXH', 0x2, 0x0), ('MOV A,[R3R2]',),
            ('RETI',)],
}

# The same panel with a mistake: its pulse handler calls the subroutine that shows the digit.
FORBIDDEN = {**PROGRAM, 0x1C0: PROGRAM[0x1C0][:-1] + [('CALL addr', 'digit'), ('RETI',)]}

PULSE = int_pin(0) + int_pin(1)


def mask(program=None):
    image = bytearray(assemble(program or PROGRAM))
    image[0xF00:0xF00 + len(SEGMENTS)] = bytes(SEGMENTS)
    return bytes(image)


def script():
    out = power_on(rate=5) + run(60)            # awake: digit 0
    out += run(1000)                            # asleep
    out += PULSE + run(60)                      # awake: digit 1
    out += PULSE + run(60)                      # digit 2
    out += run(1000)                            # asleep
    for _ in range(7):
        out += PULSE + run(40)                  # up to digit 9
    out += PULSE + run(60)                      # digit 0 and a sound
    return out + run(1000)                      # asleep


def shown(line):
    """The digit that a line shows, or None when it is dark."""
    report = bytes.fromhex(line)
    pattern = report[16] + 16 * report[17]
    return SEGMENTS.index(pattern) if pattern in SEGMENTS else None


# The button is pressed and let go.
PRESS = pins(14, 15, 15) + run(60) + pins(15, 15, 15)
STROKE = PULSE + run(60)


def pump_script():
    out = power_on(rate=5) + run(60)            # stopped: digit 0
    out += PRESS + run(60)                      # running
    out += 5 * STROKE                           # digits 1 to 5; stopped by the last
    out += STROKE                               # one that comes late does not count
    out += PRESS + 2 * STROKE + run(1000)       # running, digits 1 and 2, then tripped
    return out + PRESS                          # running again: digit 0


def assembled(source):
    """The mask of a text, which passes."""
    number, line, image = assembler.assemble(source.read_bytes())
    assert not number, (number, line)
    assert reference.checker(image)[1] == 'passed', reference.checker(image)[1]
    return image


def pump_files():
    image = assembled(PUMP)
    assert [image[0xF00 + 16 * digit] for digit in range(len(SEGMENTS))] == SEGMENTS
    lines = reference.panel(image, pump_script())
    reports = [bytes.fromhex(one) for one in lines]
    states = [(report[13], report[14], shown(one)) for report, one in zip(reports, lines)]     # PA, sound, digit
    after = [1, 5] + [5 + 3 * k for k in range(1, 7)] + [26, 29, 32, 33, 36]
    want = [(0, 16, 0), (1, 16, 0), (1, 16, 1), (1, 16, 2), (1, 16, 3), (1, 16, 4), (0, 16, 5), (0, 16, 5),
            (1, 16, 0), (1, 16, 1), (1, 16, 2), (8, 3, 2), (1, 16, 0)]
    assert [states[k] for k in after] == want, states
    return {PUMP: PUMP.read_bytes(), FOLDER / 'pump.bin': image, FOLDER / 'pump_script.bin': pump_script(),
            FOLDER / 'pump_expected': stored.printed(lines)}


PRESSED, LET_GO = pins(14, 15, 15), pins(15, 15, 15)
EDGE = int_pin(0) + run(100) + int_pin(1)


def gauge_script():
    out = power_on(rate=5, wake_pm=1) + run(100)    # 1.50
    out += 4 * EDGE                                 # 1.00, 0.50, 0.00, -0.50
    out += PRESSED + run(100) + LET_GO              # asleep
    out += PRESSED + run(100) + LET_GO + run(100)   # awake: -0.50
    return out + 2 * EDGE                           # -1.00, and no further


GAUGE_LINES = ('dark 1.50 1.50 1.00 1.00 1.00 0.50 0.50 0.50 0.00 0.00 0.00 -0.50 -0.50 -0.50 dark dark '
               '-0.50 -0.50 -0.50 -0.50 -0.50 -1.00 -1.00 -1.00 -1.00 -1.00').split()


def gauge_files():
    image = assembled(GAUGE)
    lines = glass.readings(image, gauge_script())
    assert lines == GAUGE_LINES, lines
    return {GAUGE: GAUGE.read_bytes(), FOLDER / 'gauge.bin': image, FOLDER / 'gauge_script.bin': gauge_script(),
            FOLDER / 'gauge_expected': stored.printed(lines)}


def files():
    lines = reference.panel(mask(), script())
    digits = [shown(line) for line in lines]
    assert [digits[k] for k in (1, 2, 5, 8, 9, 12, 30, 33, 34)] == [0, None, 1, 2, None, 3, 9, 0, None], digits
    assert bytes.fromhex(lines[33])[14] == 5
    forbidden = mask(FORBIDDEN)
    assert reference.checker(mask())[1] == 'passed'
    assert reference.checker(forbidden)[1] == (2, 0x1D4, 2), reference.checker(forbidden)[1]
    assert shortest_ways(forbidden) == 1
    return {FOLDER / 'mask.bin': mask(), FOLDER / 'script.bin': script(),
            FOLDER / 'expected': stored.printed(lines), FOLDER / 'forbidden.bin': forbidden,
            FOLDER / 'forbidden': stored.printed(reference.checkmask(forbidden)),
            **pump_files(), **gauge_files()}


if __name__ == '__main__':
    stored.write_files(files())
