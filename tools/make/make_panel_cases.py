"""Writes the stored input of `panel` and what it must print.

crates/panel has document 01's example: data/mask.bin, data/script.bin and stdout. Each folder
of tests/panel is one more case: mask.bin, script.bin and expected. A file `missing` in the
folder has the name of the file that is left out. What is expected comes from the reference
model; the answers below, where document 01 decides them alone, are typed by hand and held to it.
"""

from paths import ROOT
import reference
import stored
from panel_input import (assemble, int_pin, pins, power_on, record, res, run, tmclk)

CRATE = ROOT / 'crates' / 'panel'
CASES = ROOT / 'tests' / 'panel'

# 'Mask 75 30, then 3E throughout; script 06 00 01 00 02 04 00 00 00 00, 02 00 02 00 02 00'
MASK = bytes.fromhex('7530').ljust(reference.MASK, b'\x3e')
SCRIPT = bytes.fromhex('06000100020400000000' '020002000200')

# 'the lines are ..., each followed by 64 zeros'
# docs/SCRIPT.md works this one through; check_stored.py holds the page to it.
WORKED = bytes.fromhex('06000100020400000000' '020002000200' '030003000e0f0f' '0100040000' '020005000500' '00000600')

LINES = ['2C0010000000000000000000000F1000' + '0' * 64,
         '2C001000020002000000000000051000' + '0' * 64]

# 65,534 accesses to 80h by 32,767 turns of 3 cycles; then two more, one of which is past 65,535. PC and cycle count alone move.
STRAYS = ['2C001000' + moved + '0000000F1000' + '0' * 64
          for moved in ('0000' '00000000', '0200' '02000000', '0200' 'FF7F0100', '0200' '02800100', '0300' '03800100', '0000' '03800100',
                        '0000' '00000000')]

# ---------------------------------------------------------------------------
# Programs
# ---------------------------------------------------------------------------

# Handlers that count at E4h (timer) and E8h (edge); R3R2 is theirs.
HANDLERS = {
    0x004: [('JMP addr', 'timer')],
    0x008: [('JMP addr', 'edge')],
    0x100: ['timer', ('MOV R3R2,XXH', 0x4, 0xE), ('INC [R3R2]',), ('STC',), ('RETI',)],
    0x180: ['edge', ('MOV R3R2,XXH', 0x8, 0xE), ('INC [R3R2]',), ('CLC',), ('RETI',)],
}

# Ports to the display and to PA, sound, and the timer's low nibble to E3h.
EVERY_KIND = assemble({
    0x000: [('JMP addr', 'main')],
    0x020: ['main', ('TIMER XXH', 0xF0), ('TIMER ON',), ('SOUND n', 7), ('SOUND LOOP',), ('EI',),
            'loop', ('IN A,PM',), ('OUT PA,A',), ('MOV R1R0,XXH', 0x0, 0xE), ('MOV [R1R0],A',),
            ('IN A,PS',), ('INC Rn', 0), ('MOV [R1R0],A',),
            ('IN A,PP',), ('INC Rn', 0), ('MOV [R1R0],A',),
            ('MOV A,TMRL',), ('INC Rn', 0), ('MOV [R1R0],A',),
            ('JMP addr', 'loop')],
    **HANDLERS})

# Two accesses a turn to an address where no memory is.
INTO_THE_GAP = assemble({0x000: [('MOV R1R0,XXH', 0x0, 0x8), 'loop', ('INC [R1R0]',), ('JMP addr', 'loop')]})

# The main program counts its rounds at E0h in decimal, with CF kept over interrupts.
TIMER = assemble({
    0x000: [('JMP addr', 'main')],
    0x020: ['main', ('TIMER ON',), ('EI',), ('MOV R1R0,XXH', 0x0, 0xE),
            'loop', ('MOV A,[R1R0]',), ('ADD A,XH', 1), ('DAA',), ('MOV [R1R0],A',),
            ('JNC addr', 'loop'), ('INC Rn', 4), ('MOV A,Rn', 4), ('OUT PA,A',), ('JMP addr', 'loop')],
    **HANDLERS})

# Counts its wakes at E0h and halts again.
SLEEPER = assemble({
    0x000: [('JMP addr', 'main')],
    0x020: ['main', ('EI',), ('MOV R1R0,XXH', 0x0, 0xE),
            'sleep', ('HALT',), ('INC [R1R0]',), ('MOV A,[R1R0]',), ('OUT PA,A',), ('JMP addr', 'sleep')],
    **HANDLERS})

# The same with interrupts off: the edge stays held.
SLEEPER_OFF = assemble({
    0x000: [('MOV R1R0,XXH', 0x0, 0xE),
            'sleep', ('HALT',), ('INC [R1R0]',), ('MOV A,[R1R0]',), ('OUT PA,A',), ('JMP addr', 'sleep')]})

# Halts with TF set, and shows after the wake on PA whether it still is.
HALT_WITH_TF = assemble({
    0x000: [('TIMER XXH', 0xFF), ('TIMER ON',), ('HALT',), ('TIMER OFF',), ('JTMR addr', 'set'),
            ('HALT',), 'set', ('MOV A,XH', 6), ('OUT PA,A',), ('HALT',)]})


def turbo(timer, interrupts):
    """Sleeps with the timer at C8h; once woken, shows the count at E0h and E1h and on PA whether TF was set, and sleeps again."""
    return assemble({
        0x000: [('JMP addr', 'main')],
        0x020: ['main', ('TIMER XXH', 0xC8), (timer,), (interrupts,), ('MOV R1R0,XXH', 0x0, 0xE),
                'sleep', ('HALT',), ('MOV A,TMRL',), ('MOV [R1R0],A',), ('INC Rn', 0), ('MOV A,TMRH',), ('MOV [R1R0],A',), ('DEC Rn', 0),
                ('MOV A,XH', 0), ('JTMR addr', 'set'), ('JMP addr', 'show'), 'set', ('MOV A,XH', 1),
                'show', ('OUT PA,A',), ('JMP addr', 'sleep')],
        **HANDLERS})


CALL_IN_CALL = assemble({0x000: [('CALL addr', 'one')], 0x010: ['one', ('CALL addr', 'one')]})
RETURN = assemble({0x000: [('MOV A,XH', 9), ('OUT PA,A',), ('RET',)]})
UNREADABLE = MASK[:2] + bytes.fromhex('4015') + MASK[4:]

# The last byte is a JMP's first one, byte 0 its second: JMP 375h.
ROUND_THE_END = assemble({0x002: [('JMP addr', 'last')], 0xFFF: ['last', ('NOP',)],
                          0x375: [('HALT',)]})
ROUND_THE_END = MASK[:2] + ROUND_THE_END[2:0xFFF] + b'\xe3'

# ---------------------------------------------------------------------------
# Cases
# ---------------------------------------------------------------------------

LONGEST = 65535
START = power_on()


def padded(size, last=b''):
    """Power-on, then RES, with one INT where the size asks for it, then `last`."""
    body = START + last
    more = (size - len(body)) % 4       # an INT record has five bytes, a RES four
    middle = more * int_pin(1)
    middle += (size - len(body) - len(middle)) // 4 * res()
    assert len(body) + len(middle) == size
    return START + middle + last


def line(pc, cycles, level=0, halted=0, pa=15, shows=()):
    """A report's line, typed by its fields; `shows` has the lit nibbles, as pairs of data address and value."""
    display = bytearray(32)
    for address, value in shows:
        display[address - 0xE0] = value
    return (bytes([44, 0, 16, 0, pc % 256, pc // 256]) + cycles.to_bytes(4, 'little')
            + bytes([level, halted, 0, pa, 16, 0]) + display).hex().upper()


# The two ways to wake `turbo`: options of the power-on, the falling edge, and the rise before the next one.
BY_INT = dict(), int_pin(0), int_pin(1)
BY_PIN = dict(wake_pp=8), pins(15, 15, 7), pins(15, 15, 15)


def counted_asleep(wake):
    """Pulses to 255, a wake; one pulse more, which sets TF, three that leave it set, a wake."""
    options, fall, rise = wake
    return power_on(rate=255, **options) + run(100) + tmclk(55) + fall, rise + tmclk(1) + tmclk(3) + run(9) + fall


def counted_asleep_enabled(wake):
    first, second = counted_asleep(wake)
    return first + run(1) + run(5) + run(1) + run(99) + second + run(1) + run(5) + run(1) + run(5) + run(6)


def counted_asleep_disabled(wake):
    first, second = counted_asleep(wake)
    return first + run(6) + run(99) + second + run(6) + run(4)


# HALT stands at 026h, so 028h is where a wake goes on.
COUNTED_ENABLED = [
    line(0x000, 0), line(0x028, 10, halted=1), line(0x028, 10, halted=1),
    line(0x028, 10),                                                            # woken
    line(0x008, 12, level=2), line(0x028, 19, shows=[(0xE8, 1)]),               # the held edge
    line(0x029, 20, shows=[(0xE8, 1)]),                                         # and no TF
    *4 * [line(0x028, 35, halted=1, pa=0)], line(0x028, 35, halted=1, pa=0),    # asleep again; TF wakes nothing
    line(0x028, 35, pa=0, shows=[(0xE0, 15), (0xE1, 15), (0xE8, 1)]),           # woken; the last count was FFh
    line(0x008, 37, level=2, pa=0, shows=[(0xE0, 15), (0xE1, 15), (0xE8, 1)]),  # the held edge first
    line(0x028, 44, pa=0, shows=[(0xE0, 15), (0xE1, 15), (0xE8, 2)]),
    line(0x004, 46, level=2, pa=0, shows=[(0xE0, 15), (0xE1, 15), (0xE8, 2)]),  # then TF
    line(0x028, 53, pa=0, shows=[(0xE0, 15), (0xE1, 15), (0xE4, 1), (0xE8, 2)]),
    line(0x02E, 59, pa=0, shows=[(0xE0, 3), (0xE4, 1), (0xE8, 2)])]             # the count is 03h
COUNTED_DISABLED = [
    line(0x000, 0), line(0x028, 10, halted=1), line(0x028, 10, halted=1),
    line(0x028, 10), line(0x02E, 16, shows=[(0xE0, 15), (0xE1, 15)]),           # woken; the count is FFh
    *4 * [line(0x028, 26, halted=1, pa=0)], line(0x028, 26, halted=1, pa=0),    # asleep again; TF wakes nothing
    line(0x028, 26, pa=0, shows=[(0xE0, 15), (0xE1, 15)]),                      # woken; the last count was FFh
    line(0x02E, 32, pa=0, shows=[(0xE0, 3)]),                                   # the count is 03h
    line(0x035, 37, pa=1, shows=[(0xE0, 3)])]                                   # TF was set


def idle_asleep(rate, *runs):
    """Pulses that move nothing, and a wake by INT and, after another power-on, by a pin."""
    return b''.join(power_on(rate=rate, **options) + run(100) + tmclk(300) + run(9) + fall + b''.join(map(run, runs))
                    for options, fall, _ in (BY_INT, BY_PIN))


# The count is C8h as before, and TF is not set.
IDLE_ENABLED = 2 * [
    line(0x000, 0), line(0x028, 10, halted=1), line(0x028, 10, halted=1), line(0x028, 10, halted=1), line(0x028, 10),
    line(0x008, 12, level=2), line(0x028, 19, shows=[(0xE8, 1)]), line(0x02E, 25, shows=[(0xE0, 8), (0xE1, 12), (0xE8, 1)]),
    line(0x026, 33, pa=0, shows=[(0xE0, 8), (0xE1, 12), (0xE8, 1)])]
IDLE_DISABLED = 2 * [
    line(0x000, 0), line(0x028, 10, halted=1), line(0x028, 10, halted=1), line(0x028, 10, halted=1), line(0x028, 10),
    line(0x02E, 16, shows=[(0xE0, 8), (0xE1, 12)]), line(0x026, 24, pa=0, shows=[(0xE0, 8), (0xE1, 12)])]


# What each case guards: tests/panel/README.md is made of it.
GUARDS = {
    'example': "document 01's own example, bytes and lines as printed there",
    'worked-through': 'the script of docs/SCRIPT.md: each kind once',
    'every-kind': 'each kind of event at least once, on the external clock; both handlers; a second power-on with 3 commons',
    'three-commons': 'bit 3 of each display nibble shows 0 with 3 commons and 1 with 4; a Run of 65,535 steps',
    'timer-interrupts': 'a step that forgets the timer, an interrupt that loses CF, a count not kept between Runs',
    'timer-rates': 'each of the thirteen rates: a rate shifted by one, the phase of the cycle count left out',
    'external-clock': 'TMCLK that does not pass 255, just passes it, and passes it 255 times; none after RES stopped the timer',
    'halt-pin-wake': 'wake bits: only a falling bit whose wake bit is 1 wakes, and only when halted; the edge is then taken',
    'halt-int-wake': 'INT wakes without a wake bit; a second low level is no edge; the held edge goes to 008h',
    'halt-int-wake-disabled': 'with interrupts off the wake goes on after HALT and the edge stays held',
    'halt-not-by-timer': 'TF wakes nothing, nor TMCLK on the internal clock, nor an edge held before HALT',
    'pulses-asleep-int-wake': 'pulses asleep that end at 255, that pass it, and more with TF set: they wake nothing; woken by INT, the held edge goes first (008h), then TF (004h)',
    'pulses-asleep-int-wake-disabled': 'the same with interrupts off: the program goes on after HALT, and JTMR finds TF',
    'pulses-asleep-pin-wake': 'the same pulses, woken by a falling pin: the held edge, then TF',
    'pulses-asleep-pin-wake-disabled': 'the same with interrupts off',
    'pulses-asleep-internal-clock': 'pulses asleep move no timer on the internal clock; woken by INT and by a pin',
    'pulses-asleep-internal-clock-disabled': 'the same with interrupts off',
    'pulses-asleep-timer-stopped': 'pulses asleep move no stopped timer; woken by INT and by a pin',
    'pulses-asleep-timer-stopped-disabled': 'the same with interrupts off',
    'strays': 'over 65,535 accesses to data memory that is not there: no report shows their count, and none is disturbed by it',
    'round-the-end': 'an instruction whose second byte is the byte at 0',
    'fault-1': 'a second byte that breaks its pattern: fault 1, the PC stays, a later edge changes no fault; RES clears it',
    'fault-2': 'CALL in level 1: fault 2; pins and TMCLK on a faulted machine',
    'fault-3': 'RET in level 0: fault 3; a further power-on clears it',
    'refused-1-short-mask': 'a mask of 4,095 bytes',
    'refused-1-long-mask': 'a mask of 4,097 bytes',
    'refused-1-empty-mask': 'an empty mask',
    'refused-1-missing-mask': 'no mask.bin: counts as empty',
    'refused-1-first': "1 goes before the script's own refusals",
    'refused-3-fill': 'the fill nibble of a power-on is no option: 3, not 4',
    'refused-3-pins': "the first bad record's offset, not the last's",
    'refused-3-int': 'INT over 1',
    'refused-3-before-4': '3 over all records goes before 4, although the 4 stands first',
    'refused-4-rate': 'rate 6',
    'refused-4-commons': "commons 5, at its record's offset",
    'refused-4-wake': 'a wake nibble over 15 is an option: 4, not 3',
    'refused-6-cut-head': "three bytes where a record's head has four",
    'refused-6-cut-payload': 'a payload that runs past the end',
    'refused-6-cut-unknown': '6 goes before 7 in a record cut off',
    'refused-6-length': 'RES with a payload; the first bad record decides',
    'refused-6-too-long': '65,536 bytes are refused at offset 0, whatever they hold',
    'refused-7-kind-9': 'an unknown kind',
    'refused-7-kind-257': 'the kind has two bytes: 257 is not 1',
    'refused-7-kind-0': 'kind 0, whatever its length; before a 3 further on',
    'refused-7-last-of-65535': 'the last record of the longest script',
    'refused-3-last-of-65535': 'the largest offset, 65,530',
    'refused-8-empty-script': 'no record at all',
    'refused-8-missing-script': 'no script.bin: counts as empty',
    'refused-8-first-run': '8 goes before 3',
    'refused-1-both-missing': 'no file at all: 1',
}


def cases():
    """Name, mask, script (None: the file is missing) and the answer typed by hand, or None."""
    yield 'example', MASK, SCRIPT, LINES
    yield 'worked-through', MASK, WORKED, None
    yield 'every-kind', EVERY_KIND, (
        power_on(rate=255, fill=3) + run(5) + pins(1, 2, 4) + run(20) + int_pin(0) + run(30) + tmclk(16)
        + run(30) + tmclk(5) + run(20) + int_pin(1) + int_pin(1) + res() + run(2)
        + power_on(rate=0, commons=3, fill=15) + run(60)), None
    yield 'three-commons', MASK, power_on(commons=3, fill=15) + run(1) + power_on(fill=15) + run(65535), None
    yield 'timer-interrupts', TIMER, power_on(rate=4) + 4 * run(5000) + run(1) + run(7777), None
    yield 'timer-rates', TIMER, b''.join(power_on(rate) + run(1500) for rate in reference.RATES), None
    yield 'external-clock', TIMER, (
        power_on(rate=255) + run(10) + tmclk(255) + run(9) + tmclk(1) + run(9) + tmclk(65535) + run(40)
        + res() + tmclk(256) + run(9)), None
    yield 'halt-pin-wake', SLEEPER, (
        power_on(wake_pm=1, wake_ps=8) + run(100) + pins(14, 15, 15) + run(10) + run(10) + pins(15, 15, 15)
        + pins(15, 15, 0) + run(5) + pins(1, 7, 0) + run(4) + run(100) + pins(1, 7, 0) + run(3)), None
    yield 'halt-int-wake', SLEEPER, (
        power_on() + run(100) + pins(0, 0, 0) + int_pin(0) + run(1) + run(8) + run(100) + int_pin(0)
        + int_pin(1) + run(5) + int_pin(0) + run(9)), None
    yield 'halt-int-wake-disabled', SLEEPER_OFF, (
        power_on() + run(9) + int_pin(0) + run(3) + run(9) + int_pin(1) + run(9) + int_pin(0) + run(4)), None
    yield 'halt-not-by-timer', HALT_WITH_TF, (
        power_on(rate=0) + run(1) + int_pin(0) + run(50) + tmclk(300) + run(50) + int_pin(1) + run(50)
        + int_pin(0) + run(4) + run(9)), None
    yield 'pulses-asleep-int-wake', turbo('TIMER ON', 'EI'), counted_asleep_enabled(BY_INT), COUNTED_ENABLED
    yield 'pulses-asleep-int-wake-disabled', turbo('TIMER ON', 'DI'), counted_asleep_disabled(BY_INT), COUNTED_DISABLED
    yield 'pulses-asleep-pin-wake', turbo('TIMER ON', 'EI'), counted_asleep_enabled(BY_PIN), COUNTED_ENABLED
    yield 'pulses-asleep-pin-wake-disabled', turbo('TIMER ON', 'DI'), counted_asleep_disabled(BY_PIN), COUNTED_DISABLED
    yield 'pulses-asleep-internal-clock', turbo('TIMER ON', 'EI'), idle_asleep(13, 1, 5, 6, 5), IDLE_ENABLED
    yield 'pulses-asleep-internal-clock-disabled', turbo('TIMER ON', 'DI'), idle_asleep(13, 6, 5), IDLE_DISABLED
    yield 'pulses-asleep-timer-stopped', turbo('TIMER OFF', 'EI'), idle_asleep(255, 1, 5, 6, 5), IDLE_ENABLED
    yield 'pulses-asleep-timer-stopped-disabled', turbo('TIMER OFF', 'DI'), idle_asleep(255, 6, 5), IDLE_DISABLED
    yield 'strays', INTO_THE_GAP, power_on() + run(1) + run(65534) + run(2) + run(1) + res() + power_on(), STRAYS
    yield 'round-the-end', ROUND_THE_END, power_on() + run(2) + run(1) + run(1) + run(1) + run(9), None
    yield 'fault-1', UNREADABLE, power_on() + run(65535) + int_pin(0) + run(1) + res() + run(2), None
    yield 'fault-2', CALL_IN_CALL, power_on() + run(1) + run(1) + pins(0, 0, 0) + tmclk(9) + run(9) + res(), None
    yield 'fault-3', RETURN, power_on() + run(2) + run(1) + res() + run(9) + power_on(), None

    yield 'refused-1-short-mask', MASK[:-1], SCRIPT, 'refused 1 at 0'
    yield 'refused-1-long-mask', MASK + b'\x3e', SCRIPT, 'refused 1 at 0'
    yield 'refused-1-empty-mask', b'', SCRIPT, 'refused 1 at 0'
    yield 'refused-1-missing-mask', None, SCRIPT, 'refused 1 at 0'
    yield 'refused-1-first', MASK[:-1], START + record(9), 'refused 1 at 0'
    yield 'refused-3-fill', MASK, power_on(fill=16), 'refused 3 at 0'
    yield 'refused-3-pins', MASK, START + run(2) + pins(16, 0, 0) + int_pin(2), 'refused 3 at 16'
    yield 'refused-3-int', MASK, START + pins(0, 1, 2) + int_pin(2) + pins(0, 16, 0), 'refused 3 at 17'
    yield 'refused-3-before-4', MASK, power_on(rate=6) + pins(0, 0, 255), 'refused 3 at 10'
    yield 'refused-4-rate', MASK, power_on(rate=6) + res(), 'refused 4 at 0'
    yield 'refused-4-commons', MASK, START + res() + power_on(commons=5) + power_on(14), 'refused 4 at 14'
    yield 'refused-4-wake', MASK, START + START + power_on(wake_pp=16), 'refused 4 at 20'
    yield 'refused-6-cut-head', MASK, START + bytes.fromhex('050006'), 'refused 6 at 10'
    yield 'refused-6-cut-payload', MASK, START + int_pin(0) + run(9)[:-1], 'refused 6 at 15'
    yield 'refused-6-cut-unknown', MASK, START + record(9, b'\1', length=2), 'refused 6 at 10'
    yield 'refused-6-length', MASK, START + res() + record(6, b'\0') + record(9), 'refused 6 at 14'
    yield 'refused-6-too-long', MASK, padded(LONGEST + 1, record(9)), 'refused 6 at 0'
    yield 'refused-7-kind-9', MASK, START + record(9) + record(6, b'\0'), 'refused 7 at 10'
    yield 'refused-7-kind-257', MASK, record(257, START[4:]), 'refused 7 at 0'
    yield 'refused-7-kind-0', MASK, SCRIPT + record(0, b'\1\2\3') + pins(16, 0, 0), 'refused 7 at 16'
    yield 'refused-7-last-of-65535', MASK, padded(LONGEST, record(7)), 'refused 7 at 65531'
    yield 'refused-3-last-of-65535', MASK, padded(LONGEST, int_pin(2)), 'refused 3 at 65530'
    yield 'refused-8-empty-script', MASK, b'', 'refused 8 at 0'
    yield 'refused-8-missing-script', MASK, None, 'refused 8 at 0'
    yield 'refused-8-first-run', MASK, run(2) + power_on(fill=16), 'refused 8 at 0'
    yield 'refused-1-both-missing', None, None, 'refused 1 at 0'


def expected(mask, script, answer):
    lines = reference.panel(mask or b'', script or b'')
    if answer is not None:
        assert lines == ([answer] if isinstance(answer, str) else answer), (answer, lines)
    else:
        assert not lines[0].startswith('refused')
    return stored.printed(lines)


def readme():
    names = [case[0] for case in cases()]
    assert names == list(GUARDS), 'a case without what it guards, or the other way round'
    head = ('# Stored cases of `panel`\n\nEach folder is one case: `mask.bin`, `script.bin` and what the program must print, `expected`. A file '
            '`missing` names\na file that is left out. `tools/make/make_panel_cases.py` makes them all, this page too; '
            '`tools/compare/differential.py` runs them.\n'
            '`docs/SCRIPT.md` has the format.\n')
    return stored.page(head, GUARDS.items())


def files():
    """All that is stored, as a dict from paths to bytes."""
    result = {CRATE / 'data' / 'mask.bin': MASK, CRATE / 'data' / 'script.bin': SCRIPT,
              CRATE / 'stdout': expected(MASK, SCRIPT, LINES), CASES / 'README.md': readme()}
    for name, mask, script, answer in cases():
        result |= stored.case_files(CASES / name, {'mask.bin': mask, 'script.bin': script, 'expected': expected(mask, script, answer)})
    return result


if __name__ == '__main__':
    stored.write_files(files())
