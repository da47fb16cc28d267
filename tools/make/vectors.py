"""Vectors for the crate machine: cases for every instruction and every event.

Writes crates/machine_main/data/vectors.bin, the commands, and
crates/machine_main/stdout, what the program machine_main must print. The
results come from the reference model, reference.py, alone, and never from the
program. The top of crates/machine_main/src/main.rt has the format of the
commands, that of text.rt the format of a line.

Prints what the vectors meet, and asserts that they meet all that they are
made for. Always writes the same bytes.
"""

import random
from collections import Counter
from dataclasses import replace

from paths import ROOT
import isa_table as isa
import reference as ref
import stored
from isa_table import Refused
from reference import Options

CRATE = ROOT / 'crates' / 'machine_main'
NOP = 0x3E
IMAGE_ROOM = 168            # bytes of an image in the file
POWER_ON, RUN, PINS, INT, TMCLK, RES, STEP, SET_CPU, SET_NIBBLE, SET_GAP, QUERY = range(1, 12)

seen = Counter()            # what the vectors met, by name


# ---------------------------------------------------------------------------
# Chance
# ---------------------------------------------------------------------------

class Draw:
    """Random numbers from random(), whose sequence no version of Python changes."""

    def __init__(self, seed):
        self.source = random.Random(seed)

    def below(self, n):
        return int(self.source.random() * n)

    def pick(self, items):
        return items[self.below(len(items))]

    def chance(self, percent):
        return self.below(100) < percent

    def bytes(self, n):
        return [self.below(256) for _ in range(n)]

    def nibbles(self, n):
        return [self.below(16) for _ in range(n)]

    def shuffled(self, items):
        return sorted(items, key=lambda _: self.source.random())


draw = Draw(1130)


def random_options():
    return Options(draw.pick(ref.RATES), draw.pick((3, 4)), *draw.nibbles(3))


def random_cycles():
    """Any count, or one just under a multiple of 2,048 or under the largest."""
    kind = draw.below(4)
    if kind == 0:
        return 2 ** 32 - 1 - draw.below(3)
    if kind == 1:
        return 2048 * draw.below(2 ** 21) + 2045 + draw.below(3)
    return draw.below(2 ** 32)


def random_state(m, pc, level):
    """m with every field of the processor drawn anew, neither halted nor faulted, and
    with no interrupt to take."""
    timer = draw.below(256) if draw.chance(50) else 248 + draw.below(8)
    m = replace(
        m, acc=draw.below(16), r=draw.nibbles(5), pc=pc, cf=draw.below(2), tf=draw.below(2),
        timer=timer, running=draw.below(2), enable=draw.below(2), held_edge=draw.below(2),
        level=level, stack_address=draw.below(4096), stack_carry=draw.below(2), halted=0,
        fault=0, pa=draw.below(16), sound_channel=draw.below(17), sound_mode=draw.below(2),
        pm=draw.below(16), ps=draw.below(16), pp=draw.below(16), int_pin=draw.below(2),
        options=random_options(), cycles=random_cycles())
    return replace(m, enable=0) if pending(m) else m


# ---------------------------------------------------------------------------
# Lines and commands
# ---------------------------------------------------------------------------

def small(x):
    """One digit, or two in brackets."""
    return f'{x:X}' if x <= 15 else f'({x:02X})'


def line(refusal, m):
    """A line of the output: the refusal and every field."""
    def smalls(*values):
        return ''.join(small(x) for x in values)
    o = m.options
    parts = [
        small(refusal), smalls(m.acc, *m.r), f'{m.pc:04X}', smalls(m.cf, m.tf),
        f'{m.timer:02X}' + small(m.running), smalls(m.enable, m.held_edge, m.level),
        f'{m.stack_address:04X}' + small(m.stack_carry), smalls(m.halted, m.fault),
        small(m.pa) + f'{m.sound_channel:02X}' + small(m.sound_mode),
        smalls(m.pm, m.ps, m.pp, m.int_pin),
        f'{o.rate:02X}' + smalls(o.commons, o.wake_pm, o.wake_ps, o.wake_pp),
        f'{m.cycles:08X}', f'{m.gap:04X}', ''.join(f'{x % 16:X}' for x in m.data)]
    if max(m.data) > 15:
        parts.append(''.join(f'{x // 16:X}' for x in m.data))
    return ' '.join(parts)


def two(x):
    return x.to_bytes(2, 'little')


def cpu_bytes(m):
    """The processor as command 8 has it."""
    o = m.options
    return (bytes([m.acc, *m.r]) + two(m.pc)
            + bytes([m.cf, m.tf, m.timer, m.running, m.enable, m.held_edge, m.level])
            + two(m.stack_address)
            + bytes([m.stack_carry, m.halted, m.fault, m.pa, m.sound_channel, m.sound_mode,
                     m.pm, m.ps, m.pp, m.int_pin,
                     o.rate, o.commons, o.wake_pm, o.wake_ps, o.wake_pp])
            + m.cycles.to_bytes(4, 'little'))


# A case starts from Machine::blank(). It is out of range, and no matter of document 01.
BLANK = ref.Machine(
    acc=0, r=[0] * 5, data=[0] * 160, pc=0, cf=0, tf=0, timer=0, running=0, enable=0, held_edge=0,
    level=0, stack_address=0, stack_carry=0, halted=0, fault=0, pa=15, sound_channel=16,
    sound_mode=0, pm=0, ps=0, pp=0, int_pin=0, options=Options(0, 0, 0, 0, 0), cycles=0, gap=0)


class Case:
    """A mask and its commands, with the model's machine beside them."""

    def __init__(self, mask):
        self.mask = bytes(mask)
        self.m = BLANK
        self.commands = []
        self.lines = []
        cases.append(self)

    def add(self, kind, payload=b''):
        self.commands.append(bytes([kind]) + bytes(payload))

    def answer(self, name, result):
        """The line of an event's result. 'The machine returns as handed in'."""
        refusal = 0
        if isinstance(result, Refused):
            refusal = result.number
            seen[f'refusal {refusal} of {name}'] += 1
        else:
            seen[name] += 1
            self.m = result
        self.lines.append(line(refusal, self.m))

    def power_on(self, options=None, image=None):
        options = options or random_options()
        image = draw.nibbles(ref.IMAGE) if image is None else image
        o = (options.rate, options.commons, options.wake_pm, options.wake_ps, options.wake_pp)
        room = list(image) + draw.bytes(IMAGE_ROOM - len(image))
        before = self.m.gap
        self.add(POWER_ON, bytes([len(image), *o, *room]))
        # Whether a power-on over a machine out of range is refused is left open here.
        assert self.m is BLANK or ref.machine_ok(self.m)
        self.answer('power-on', ref.power_on(options, image))
        seen['power-on clears a count'] += before > self.m.gap
        seen['refused power-on keeps a count'] += before == self.m.gap > 0

    def step(self):
        self.add(STEP)
        result = ref.step(self.mask, self.m)
        if not isinstance(result, Refused):
            note_step(self.m, result, self.mask)
        self.answer('step', result)

    def steps(self, n):
        for _ in range(n):
            self.step()

    def run(self, n, length=ref.MASK):
        self.add(RUN, two(n) + two(length))
        handed = self.mask[:length] if length <= ref.MASK else bytes(length)
        result = ref.event_run(self.m, handed, n)
        if not isinstance(result, Refused):
            note_run(self.m, result, self.mask, n)
        self.answer('Run', result)

    def pins(self, pm, ps, pp):
        self.add(PINS, [pm, ps, pp])
        result = ref.event_pins(self.m, pm, ps, pp)
        note_wake(self.m, result, 'pins')
        self.answer('pins', result)

    def int(self, level):
        self.add(INT, [level])
        result = ref.event_int(self.m, level)
        note_wake(self.m, result, 'INT')
        self.answer('INT', result)

    def tmclk(self, n):
        self.add(TMCLK, two(n))
        result = ref.event_tmclk(self.m, n)
        note_overflow(self.m, result)
        note_pulses(self.m, result)
        self.answer('TMCLK', result)

    def res(self):
        self.add(RES)
        self.answer('RES', ref.event_res(self.m))
        seen['RES keeps a count'] += self.m.gap > 0

    def query(self):
        """The count has a line of its own."""
        self.add(QUERY)
        result = ref.gap_count(self.m)
        refused = isinstance(result, Refused)
        seen['refused query' if refused else 'query'] += 1
        self.lines.append(f'{small(result.number)} 0000' if refused else f'0 {result:04X}')

    def set(self, m):
        """Puts the machine in a state; no line. Data memory one nibble at a time."""
        self.add(SET_CPU, cpu_bytes(m))
        for i in range(160):
            if m.data[i] != self.m.data[i]:
                self.add(SET_NIBBLE, [i, m.data[i]])
        if m.gap != self.m.gap:
            self.add(SET_GAP, two(m.gap))
        self.m = m

    def put(self, **fields):
        self.set(replace(self.m, **fields))


cases = []


# ---------------------------------------------------------------------------
# What the vectors meet
# ---------------------------------------------------------------------------

def pending(m):
    return m.level == 0 and m.enable == 1 and (m.held_edge == 1 or m.tf == 1)


def note_instruction(mask, m, i, after):
    """What one instruction that runs meets."""
    mnemonic = i.code.mnemonic
    seen[f'ran {mask[m.pc]:02X}'] += 1
    seen[f'ran {mnemonic}'] += 1
    seen[f'{mnemonic} leaves CF {after.cf}'] += 1
    reads, writes = ref.accesses(m, i)
    seen['gap read'] += any(0x80 <= a <= 0xDF for a in reads)
    seen['gap write'] += any(0x80 <= a <= 0xDF for a in writes)
    counted = after.gap - m.gap
    seen[f'{mnemonic} counts {counted}'] += 1
    seen[f'count of {m.gap} and {ref.strays(m, i)} more'] += ref.strays(m, i) > 0
    seen['read at E0h-FFh'] += any(a >= 0xE0 for a in reads)
    seen['write at E0h-FFh'] += any(a >= 0xE0 for a in writes)
    if mnemonic.startswith('READ') and m.pc % 256 == 255:
        seen[f'{mnemonic} at a page end'] += 1
        seen['READ at FFFh'] += mnemonic.startswith('READ ') and m.pc == 0xFFF
    if i.code.length == 2 and m.pc == 0xFFF:
        seen['second byte at 0'] += 1
    if mnemonic in ref.BRANCHES:
        taken = ref.BRANCHES[mnemonic](m, i)
        seen[f'{mnemonic} {"taken" if taken else "not taken"}'] += 1
        moved = ref.moved(i, m.pc)
        if taken and moved >> 11 != m.pc >> 11:
            seen[f'bit 11 of the moved PC, from {m.pc >> 11}'] += 1
    if mnemonic in ('CALL addr', 'RET', 'RETI'):
        seen[f'{mnemonic} in level {m.level}'] += 1
    if mnemonic == 'RETI' and m.cf != m.stack_carry:
        seen['RETI changes CF'] += 1
    if after.cycles < m.cycles:
        seen['cycle count past its largest value'] += 1


def note_overflow(m, after):
    """The timer passed 255 where TF turns 1: no instruction sets it."""
    if not isinstance(after, Refused) and after.tf == 1 and m.tf == 0:
        seen[f'timer overflow at rate {m.options.rate}'] += 1


def note_pulses(m, after):
    """What rising edges of TMCLK meet asleep: they wake nothing."""
    if not isinstance(after, Refused) and m.halted:
        assert after == replace(m, timer=after.timer, tf=after.tf)
        seen['pulses asleep set TF' if after.tf > m.tf else
             'pulses asleep move the timer' if after != m else 'pulses asleep move nothing'] += 1


def note_step(m, after, mask):
    """What one step meets."""
    if m.halted or m.fault:
        seen['step when halted' if m.halted else 'step when faulted'] += 1
        return
    note_overflow(m, after)
    seen[f'step in level {m.level}'] += 1
    if m.running:
        seen[f'step with the timer running at rate {m.options.rate}'] += 1
    if pending(m):
        seen['edge taken' if m.held_edge else 'TF taken'] += 1
        seen['edge taken before TF'] += m.held_edge and m.tf
        return
    first = mask[m.pc]
    seen[f'fetched {first:02X}'] += 1
    if after.fault:
        seen[f'fault {after.fault}'] += 1
        seen[f'fault {after.fault} of {first:02X}'] += 1
        seen[f'fault {after.fault} of {first:02X} in level {m.level}'] += 1
    else:
        note_instruction(mask, m, ref.fetch(mask, m.pc), after)


def note_run(m, after, mask, n):
    """What a Run meets: its steps one by one end where the Run does."""
    if m.halted or m.fault:
        seen['Run when halted' if m.halted else 'Run when faulted'] += 1
    while n > 0 and not m.halted and not m.fault:
        seen['step in a Run'] += 1
        seen['interrupt in a Run'] += pending(m)
        m = ref.step(mask, m)
        n -= 1
    assert m == after
    seen['Run ended early' if n > 0 else 'Run of all its steps'] += 1


def note_wake(m, after, name):
    if isinstance(after, Refused):
        return
    if m.halted:
        seen[f'{name} wakes' if not after.halted else f'{name} does not wake'] += 1
    if name == 'INT':
        seen[f'INT from {m.int_pin} to {after.int_pin}'] += 1
        seen['INT falls on a faulted machine'] += m.fault > 0 and after.held_edge > m.held_edge


# ---------------------------------------------------------------------------
# Every first byte
# ---------------------------------------------------------------------------

DIRECTED = 8                # masks of directed cases
CARRY = ('ADD', 'ADC', 'SUB', 'SBC', 'DAA', 'RL', 'RLC', 'RR', 'RRC')
HALF_ENDS = [0x7FD, 0x7FE, 0x7FF, 0xFFD, 0xFFE, 0xFFF]   # where the moved PC's bit 11 may differ


def breakable(first):
    """Whether a second byte can break the code's pattern."""
    return any(isa.read(first, second) is None for second in range(256))


def variants(first):
    """Byte pairs to try of a first byte."""
    good = [s for s in range(256) if isa.read(first, s) is not None]
    bad = [s for s in range(256) if isa.read(first, s) is None]
    code = isa.BY_FIRST[first]
    if code is None:
        return [(first, s) for s in (0x00, 0x3E, 0xFF)]
    pairs = [(first, draw.pick(good)) for _ in range(4)]
    return pairs + ([(first, draw.pick(bad))] if bad else [])


def place(wanted, free):
    """A free address for two bytes, a wanted one where there is one."""
    wanted = iter(wanted)
    pc = next(wanted, draw.below(4096))
    while not {pc, (pc + 1) % 4096} <= free:
        pc = next(wanted, draw.below(4096))
    free -= {pc, (pc + 1) % 4096}
    return pc


def wanted_places(first):
    """Where a table read or a branch is tried first: at a page's or a half's end."""
    code = isa.BY_FIRST[first]
    if code and code.mnemonic.startswith('READ'):
        ends = draw.shuffled([256 * page + 255 for page in range(16)])
        return [0xFFF] + ends if draw.chance(50) else ends
    if code and code.mnemonic in ref.BRANCHES:
        return draw.shuffled(HALF_ENDS)
    return []


def directed():
    """Each first byte with random states in all three levels; then up to three steps more."""
    pairs = draw.shuffled([pair for first in range(256) for pair in variants(first)])
    turn = Counter()
    for k in range(DIRECTED):
        mask, free, trials = draw.bytes(4096), set(range(4096)), []
        here = [(wanted_places(pair[0]), pair) for pair in pairs[k::DIRECTED]]
        for wanted, pair in sorted(here, key=lambda one: -len(one[0])):
            pc = place(wanted, free)
            mask[pc], mask[(pc + 1) % 4096] = pair
            trials.append((pc, pair[0]))
        case = Case(mask)
        case.power_on()
        for pc, first in trials:
            level = (turn[first] + first) % 3
            turn[first] += 1
            case.set(random_state(case.m, pc, level))
            case.step()
            for _ in range(draw.pick((0, 0, 0, 0, 0, 1, 2, 3))):
                if case.m.fault == 0:
                    case.step()


def subroutines():
    """CALL, RET and RETI of every first byte in every level."""
    mask = [NOP] * 4096
    for k, first in enumerate([0x2E, 0x2F] + list(range(0xF0, 0x100))):
        mask[16 * k:16 * k + 2] = [first, draw.below(256)]
    case = Case(mask)
    case.power_on()
    for k in range(18):
        for level in range(3):
            case.set(random_state(case.m, 16 * k, level))
            case.step()


def data_edges():
    """The data addresses on both sides of the gap, by both pointers."""
    mask = [NOP] * 4096
    mask[:4] = [0x04, 0x05, 0x06, 0x07]     # MOV A,[R1R0] / [R1R0],A / A,[R3R2] / [R3R2],A
    case = Case(mask)
    case.power_on(image=[1 + n % 15 for n in range(ref.IMAGE)])
    for address in (0x00, 0x7F, 0x80, 0xDF, 0xE0, 0xFF):
        low, high = address % 16, address // 16
        for pc in range(4):
            other = draw.nibbles(2)
            r = [low, high] + other if pc < 2 else other + [low, high]
            case.set(replace(random_state(case.m, pc, 0), acc=0, r=r + [draw.below(16)]))
            case.step()
            seen[f'data address {address:02X} by {mask[pc]:02X}'] += 1


def arithmetic():
    """Sums of 15 and 16 with and without CF; each bit that goes round; DAA about 9."""
    mask = [NOP] * 4096
    mask[:9] = [0x08, 0x09, 0x0A, 0x0B, 0x00, 0x01, 0x02, 0x03, 0x36]   # ADC .. SUB; RR .. RLC; DAA
    case = Case(mask)
    case.power_on()
    for pc in range(9):
        operands = [(a, 0) for a in ((1, 8, 6) if pc < 8 else (0, 9, 10, 15))]
        for acc, x in ((7, 8), (8, 8), (0, 15)) if pc < 4 else operands:
            for cf in (0, 1):
                m = replace(random_state(case.m, pc, 0), acc=acc, cf=cf)
                m.r[1], m.data = m.r[1] % 8, list(m.data)
                m.data[ref.pointer(m, 1, 0)] = x
                case.set(m)
                case.step()
                seen[f'{mask[pc]:02X} of {acc} and {x} with CF {cf}'] += 1


# ---------------------------------------------------------------------------
# Timer, interrupts
# ---------------------------------------------------------------------------

def timer():
    """Each rate at the count's end and just before it, with 1 and with 2 cycles; the timer
    set, started and stopped."""
    mask = [NOP] * 4096
    mask[0x10:0x12] = [0x47, 0xFF]      # TIMER FFH
    mask[0x20] = 0x38                   # TIMER ON
    mask[0x30] = 0x39                   # TIMER OFF
    mask[0x40:0x42] = [0xD0, 0x00]      # JTMR 000H
    case = Case(mask)
    case.power_on()
    for rate in ref.RATES:
        unit = max(1, 2 ** (min(rate, 13) - 2))     # cycles of one count
        options = replace(random_options(), rate=rate)
        for pc, cycles, count, running, tf in (
                (0x00, unit - 1, 255, 1, 0), (0x00, unit - 2, 255, 1, 0),
                (0x10, 2 ** 32 - 2, 0, 1, 0), (0x20, 2048 - 1, 255, 0, 0),
                (0x30, 2048 - 1, 255, 1, 0), (0x40, 2048 - 2, 255, 1, 1)):
            case.set(replace(random_state(case.m, pc, 1), options=options, cycles=cycles % 2 ** 32,
                             timer=count, running=running, tf=tf))
            case.step()
    for rate, running, halted in ((255, 1, 0), (255, 0, 0), (255, 1, 1), (0, 1, 0), (13, 1, 0)):
        options = replace(random_options(), rate=rate)
        awake = rate == ref.EXTERNAL and running and not halted     # more counts asleep: pulses_asleep
        for count in (0, 1, 55, 56, 256, 65535) if awake else (56, 300):
            case.set(replace(random_state(case.m, 0, 2), options=options, timer=200, tf=0,
                             running=running, halted=halted))
            case.tmclk(count)


def interrupts():
    """All settings of level, enable flag, held edge and TF, with a timer that may run over."""
    mask = [NOP] * 4096
    mask[4], mask[8] = 0x2F, 0x2F       # RETI
    mask[0x20] = 0x35
    case = Case(mask)
    case.power_on()
    for state in range(24):
        level, enable, held, tf = state // 8, state // 4 % 2, state // 2 % 2, state % 2
        for pc in (0xFFF, 0x20) if state < 8 else (0xFFF,):
            options = replace(random_options(), rate=draw.pick((0, 1, 2)))
            m = random_state(case.m, pc, level)
            case.set(replace(m, enable=enable, held_edge=held, tf=tf, options=options,
                             running=1, timer=250 + draw.below(6)))
            case.steps(3 if pending(case.m) and pc == 0xFFF else 1)


# ---------------------------------------------------------------------------
# Events
# ---------------------------------------------------------------------------

def pins_and_int():
    """A falling bit of each port with and without its wake bit; INT up and down; on a machine
    that runs, is halted or is faulted."""
    case = Case([0x37, NOP] * 2048)     # HALT
    case.power_on()
    for halted, fault in ((0, 0), (1, 0), (0, 1), (0, 2), (0, 3)):
        for int_pin in (0, 1):
            for level in (0, 1):
                m = random_state(case.m, draw.below(4096), draw.below(3))
                case.set(replace(m, halted=halted, fault=fault, int_pin=int_pin, held_edge=0))
                case.int(level)
    for port in range(3):
        for wake, old, new in ((4, 15, 11), (4, 4, 0), (11, 15, 11), (4, 11, 15), (4, 0, 0),
                               (15, 0, 15), (15, 15, 15)):
            wakes, olds, news = [0, 0, 0], [15, 0, 5], [15, 0, 5]
            wakes[port], olds[port], news[port] = wake, old, new
            m = random_state(case.m, draw.below(4096), draw.below(3))
            options = replace(m.options, wake_pm=wakes[0], wake_ps=wakes[1], wake_pp=wakes[2])
            case.set(replace(m, halted=1, held_edge=0, options=options,
                             pm=olds[0], ps=olds[1], pp=olds[2]))
            case.pins(*news)
    for halted, fault in ((0, 0), (0, 1), (0, 3)):
        case.set(replace(random_state(case.m, 0, 0), halted=halted, fault=fault, held_edge=0,
                         pm=15, ps=15, pp=15, options=Options(3, 4, 15, 15, 15)))
        case.pins(0, 7, 3)


def stopped():
    """Steps, Runs and other events on a machine that is halted or faulted; RES from any state."""
    case = Case([0x37, NOP] + [0x38] * 4094)
    case.power_on()
    for halted, fault in ((1, 0), (0, 1), (0, 2), (0, 3)):
        for enable in (0, 1):
            m = random_state(case.m, draw.below(4096), 0)
            case.set(replace(m, halted=halted, fault=fault, enable=enable, held_edge=1, tf=1))
            case.step()
            case.run(5)
            case.run(0)
            case.tmclk(700)
            case.res()
            case.run(0)
            case.run(3)     # HALT, and an end before the count
    case.res()
    case.step()
    case.step()
    case.int(1)
    case.int(0)
    case.step()
    for _ in range(6):
        case.set(random_state(case.m, draw.below(4096), draw.below(3)))
        case.res()


def power_ons():
    """Power-on with each rate, and all that it refuses."""
    case = Case([NOP] * 4096)
    for k, rate in enumerate(ref.RATES):
        case.power_on(replace(random_options(), rate=rate, commons=3 + k % 2))
        case.run(1 + draw.below(9))
    good = random_options()
    for bad in ([dict(rate=r) for r in (6, 14, 15, 128, 254)]
                + [dict(commons=c) for c in (0, 2, 5, 255)]
                + [dict(wake_pm=16), dict(wake_ps=16), dict(wake_pp=16), dict(wake_pp=255)]):
        case.power_on(replace(good, **bad))
    for at, value in ((0, 16), (1, 255), (5, 16), (6, 16), (133, 32), (134, 16), (165, 240)):
        image = draw.nibbles(ref.IMAGE)
        image[at] = value
        case.power_on(image=image)
    for length in (0, 1, 165, 167, 168):
        case.power_on(image=draw.nibbles(length))
    # The lowest number wins.
    bad = replace(good, rate=6)
    case.power_on(bad, [16] * 165)
    case.power_on(bad, [16] * 166)
    case.power_on(bad, [0] * 165)
    case.power_on(good, [16] * 167)


# ---------------------------------------------------------------------------
# Refused events
# ---------------------------------------------------------------------------

# Each field of the processor with values outside its range.
OUTSIDE = dict(
    acc=(16, 255), pc=(4096, 65535), cf=(2,), tf=(2,), running=(2,), enable=(2,),
    held_edge=(2,), level=(3,), stack_address=(4096,), stack_carry=(2,), halted=(2,), fault=(4,),
    pa=(16,), sound_channel=(17,), sound_mode=(2,), pm=(16,), ps=(16,), pp=(16,), int_pin=(2,))
OPTIONS_OUTSIDE = dict(rate=(6, 14, 254), commons=(2, 5), wake_pm=(16,), wake_ps=(16,),
                       wake_pp=(16,))


def machines_outside(m):
    """m with one field outside its range, for each field."""
    for field, values in OUTSIDE.items():
        for value in values:
            yield replace(m, **{field: value})
    for n in range(5):
        yield replace(m, r=m.r[:n] + [16] + m.r[n + 1:])
    for field, values in OPTIONS_OUTSIDE.items():
        for value in values:
            yield replace(m, options=replace(m.options, **{field: value}))
    for n, value in ((0, 16), (127, 255), (128, 16), (159, 35)):
        yield replace(m, data=m.data[:n] + [value] + m.data[n + 1:])
    for fault in (1, 2, 3):
        yield replace(m, halted=1, fault=fault)


def refused():
    """Refusals 1, 3 and 5, and which of them wins."""
    case = Case(draw.bytes(4096))
    # Before the first power-on.
    case.run(1)
    case.pins(1, 2, 3)
    case.int(0)
    case.tmclk(9)
    case.res()
    case.step()
    case.run(1, 4095)
    case.int(2)
    case.power_on(image=[16] * 166)
    case.power_on()
    for length in (0, 1, 4095, 4097):
        case.run(9, length)
        case.run(0, length)
    for pins in ((16, 0, 0), (0, 16, 0), (0, 0, 16), (255, 255, 255), (15, 15, 128)):
        case.pins(*pins)
    for level in (2, 3, 255):
        case.int(level)
    whole = random_state(case.m, 0x123, 1)
    for k, m in enumerate(machines_outside(whole)):
        assert not ref.machine_ok(m)
        case.set(m)
        (lambda: case.run(2), lambda: case.pins(1, 2, 3), lambda: case.int(0),
         lambda: case.tmclk(999), case.res, case.step)[k % 6]()
    case.put(data=whole.data, pc=4096)
    case.run(2, 4095)
    case.pins(16, 0, 0)
    case.int(2)


# ---------------------------------------------------------------------------
# Random programs and events
# ---------------------------------------------------------------------------

FLOW = {'JMP', 'CALL', 'RET', 'RETI'} | {name.split(' ')[0] for name in ref.BRANCHES}


def instruction(without):
    """A random instruction that can be read."""
    while True:
        code = draw.pick(isa.CODES)
        fields = tuple(draw.below(isa.field_limit(letter, width) + 1)
                       for letter, _, width in isa.field_runs(code.pattern))
        if code.mnemonic.split(' ')[0] not in without:
            return isa.write(isa.Instruction(code, fields))


def stream(without):
    """A mask of random instructions."""
    mask = []
    while len(mask) < 4096:
        mask += instruction(without)
    return mask[:4096]


def program(without=frozenset()):
    """A mask that the checker passes. Main program at 010h, subroutine at 100h, timer and
    edge routines at 200h and 300h."""
    mask = [NOP] * 4096
    mask[:2], mask[4:6], mask[8:10] = [0xE0, 0x10], [0xE2, 0x00], [0xE3, 0x00]
    for at, count, end, often in (
            (0x010, 30, [0xE0, 0x10], ([0xF1, 0x00], [0xF1, 0x00], [0x2C], [0x38], [0xB0, 0x10],
                                       [0xD0, 0x10], [0x47, 0xFC])),
            (0x100, 5, [0x2E], ([0x38], [0x2C])),
            (0x200, 4, [0x2F], ([0x38], [0x2D])),
            (0x300, 4, [0x2F], ([0x47, 0xF0], [0x2C]))):
        body = []
        for _ in range(count):
            body += draw.pick(often) if draw.chance(25) else instruction(FLOW | without)
        body += end
        mask[at:at + len(body)] = body
    assert ref.checker(mask)[1] == 'passed'
    return mask


def random_event(case):
    """One event, mostly a step; a machine that stopped gets an event that starts it."""
    m = case.m
    if m.fault and draw.chance(60):
        return case.power_on() if draw.chance(15) else case.res()
    if m.halted and draw.chance(60):
        if m.int_pin == 0:
            return case.int(1)
        return case.int(0) if draw.chance(60) else case.pins(*draw.nibbles(3))
    kind = draw.below(100)
    if kind < 70:
        return case.step()
    if kind < 77:
        return case.run(draw.pick((0, 1, 2, 3, 10, 50, 300)))
    if kind < 84:
        return case.pins(*draw.nibbles(3))
    if kind < 90:
        return case.int(draw.below(2))
    if kind < 95:
        return case.tmclk(draw.pick((0, 1, 100, 256, 5000, draw.below(65536))))
    if kind < 97:
        return case.res()
    if kind == 97:
        return case.run(5, 4095)
    if kind == 98:
        return case.pins(3, 16, 3)
    return case.int(2)


def event_list(mask, rates, length):
    case = Case(mask)
    case.power_on(replace(random_options(), rate=draw.pick(rates)))
    for _ in range(length):
        random_event(case)
    return case


def random_events():
    for _ in range(8):
        event_list(program(), (0, 1, 2, 3, 4, 255), 70)
    for _ in range(4):
        event_list(stream({'CALL', 'RET', 'RETI'}), ref.RATES, 50)
    event_list(draw.bytes(4096), ref.RATES, 50)


def long_runs():
    """Runs of many steps: at every rate, and with the largest count."""
    for rates in (ref.RATES[:5], ref.RATES[5:10], ref.RATES[10:]):
        case = Case(program({'HALT'}))
        for rate in rates:
            case.power_on(replace(random_options(), rate=rate))
            case.run(1000)
            case.int(0)
            case.run(1000)
    case.power_on(replace(random_options(), rate=2))
    case.run(65535)
    case.put(cycles=2 ** 32 - 500)
    case.run(65535)


# ---------------------------------------------------------------------------
# Pulses asleep: document 02, wish 1
# ---------------------------------------------------------------------------

def pulses_asleep():
    """TMCLK on a machine that is halted or faulted, on both clocks, with the timer running and
    stopped. Then TF set by pulses asleep and a wake by INT or by a pin, with interrupts on and
    off: the held edge goes before TF."""
    mask = [NOP] * 4096
    mask[8] = 0x2F                      # RETI
    case = Case(mask)
    case.power_on()
    for rate, running in ((255, 1), (255, 0), (0, 1), (13, 1)):
        for halted, fault in ((1, 0), (0, 3)):
            for count in (0, 1, 55, 56, 256, 65535) if rate == 255 and running and halted else (300,):
                m = random_state(case.m, draw.below(4096), draw.below(3))
                case.set(replace(m, options=replace(m.options, rate=rate), timer=200, tf=0, held_edge=0,
                                 running=running, halted=halted, fault=fault))
                case.tmclk(count)
    for enable in (1, 0):
        for wake in (lambda: case.int(0), lambda: case.pins(15, 13, 15)):
            m = random_state(case.m, draw.below(4096), 0)
            case.set(replace(m, halted=1, enable=enable, held_edge=0, tf=0, timer=200, running=1, ps=15,
                             int_pin=1, options=replace(m.options, rate=255, wake_ps=2)))
            case.tmclk(56)
            case.tmclk(3)               # TF stays set
            case.run(9)
            wake()
            case.steps(3 if enable else 1)


# ---------------------------------------------------------------------------
# Strays into the gap: document 02, wish 6
# ---------------------------------------------------------------------------

THROUGH_R1R0 = [0x04, 0x05, 0x08, 0x09, 0x0A, 0x0B, 0x0C, 0x0D, *range(0x1A, 0x20), *range(0x4C, 0x50)]
THROUGH_R3R2 = [0x06, 0x07, 0x0E, 0x0F]
INC, INC_OTHER = 0x0C, 0x0E             # [R1R0], [R3R2]: two accesses each


def pairs_at(r1r0, r3r2):
    return [r1r0 % 16, r1r0 // 16, r3r2 % 16, r3r2 // 16]


def gap_edges():
    """Every instruction that goes to data memory, on both sides of both ends of the gap; the other pair is
    always across the nearest end."""
    mask = [NOP] * 4096
    codes = THROUGH_R1R0 + THROUGH_R3R2
    mask[0x100:0x100 + len(codes)] = codes
    case = Case(mask)
    case.power_on()
    for k, code in enumerate(codes):
        for address, other in ((0x7F, 0x80), (0x80, 0x7F), (0xDF, 0xE0), (0xE0, 0xDF)):
            pairs = pairs_at(address, other) if code in THROUGH_R1R0 else pairs_at(other, address)
            m = random_state(case.m, 0x100 + k, draw.below(3))
            case.set(replace(m, r=pairs + m.r[4:], gap=256 * k))
            case.step()
            seen[f'data address {address:02X} by {code:02X}, counted {case.m.gap - 256 * k}'] += 1


def gap_all():
    """Every line of the summary with both pairs in the gap; CALL, RET and RETI in each level, what cannot be read
    too. A fault counts nothing."""
    firsts = sorted({first for first in range(256) if isa.BY_FIRST[first]},
                    key=lambda first: (isa.BY_FIRST[first].mnemonic, isa.BY_FIRST[first].name or '', first))
    one_each = {(isa.BY_FIRST[first].mnemonic, isa.BY_FIRST[first].name): first for first in firsts}
    mask, trials = [NOP] * 4096, []
    for k, first in enumerate(sorted(one_each.values())):
        good = [s for s in range(256) if isa.read(first, s) is not None]
        mask[4 * k:4 * k + 2] = [first, draw.pick(good)]
        trials += [(4 * k, level) for level in ((0, 1, 2) if first in (0x2E, 0x2F) or first >= 0xF0 else (k % 3,))]
    for at, code in ((0x800, [0x35]), (0x810, [0x37, 0x00]), (0x820, [0x40, 0x10]), (0x830, [0x5A, 0x10])):
        mask[at:at + len(code)] = code
        trials.append((at, 0))
    case = Case(mask)
    case.power_on()
    for pc, level in trials:
        m = random_state(case.m, pc, level)
        case.set(replace(m, r=pairs_at(0x80 + draw.below(0x60), 0x80 + draw.below(0x60)) + m.r[4:], gap=1000))
        case.step()
        if case.m.fault:
            assert case.m.gap == 1000
            seen['fault with both pairs in the gap'] += 1
            case.run(3)
    case.query()


def gap_ends():
    """Counts that come to 65,535: one and two at a time, and in a Run."""
    mask = [NOP] * 4096
    mask[:6] = [0x04, 0x07, INC, INC_OTHER, 0x4C, 0x4E]
    mask[0x10:0x13] = [INC, 0xE0, 0x10]                         # and JMP 010H
    case = Case(mask)
    case.power_on()
    for gap in (65532, 65533, 65534, 65535):
        for pc in range(6):
            m = random_state(case.m, pc, 0)
            case.set(replace(m, r=pairs_at(0xB7, 0xC9) + m.r[4:], gap=gap))
            case.step()
            case.query()
    # 32,767 turns of the loop count 65,534, in one Run and in steps of it.
    for counts in ((65534, 1, 1, 1, 100), (40000, 25000, 533, 2, 2, 9)):
        case.power_on(image=[8] * ref.IMAGE)
        case.put(pc=0x10)
        for count in counts:
            case.run(count)
            case.query()
        assert case.m.gap == 65535
    case.res()
    case.query()
    case.power_on(image=[8] * ref.IMAGE)
    case.query()


def gap_events():
    """What the other events do to a count: nothing, but an accepted power-on clears it. Steps that take an
    interrupt, and what is refused, count nothing."""
    case = Case([INC] * 4096)
    case.query()                        # before the first power-on
    case.power_on()
    for gap in (0, 1, 0x1234, 65535):
        for flags in (dict(held_edge=1, tf=0), dict(held_edge=0, tf=1), dict(held_edge=1, tf=1)):
            m = random_state(case.m, draw.below(4096), 0)
            case.set(replace(m, r=pairs_at(0x90, 0xA0) + m.r[4:], enable=1, gap=gap, **flags))
            assert pending(case.m)
            case.step()
            assert case.m.gap == gap
            case.step()                 # INC in the handler
        for halted, fault in ((0, 0), (1, 0), (0, 2)):
            case.set(replace(random_state(case.m, 9, 1), r=[8] * 5, halted=halted, fault=fault, gap=gap))
            for event in (lambda: case.pins(*draw.nibbles(3)), lambda: case.int(1), lambda: case.tmclk(700),
                          lambda: case.run(0), lambda: case.run(3, 4095), lambda: case.run(3, 4097),
                          lambda: case.pins(16, 0, 0), lambda: case.int(2),
                          lambda: case.power_on(image=[8] * 165), lambda: case.power_on(image=[16] * 166),
                          lambda: case.power_on(Options(6, 4, 0, 0, 0)), case.res):
                event()
                assert case.m.gap == gap
            case.query()
        # A machine out of range: no Run, no step, no answer.
        whole = replace(case.m, r=[8] * 5, gap=gap)
        for m in (replace(whole, acc=16), replace(whole, pc=4096), replace(whole, halted=1, fault=1),
                  replace(whole, data=whole.data[:159] + [16])):
            case.set(m)
            case.run(5)
            case.step()
            case.query()
        case.set(whole)
        case.power_on(image=[8] * ref.IMAGE)
        case.query()
        case.run(5)
        case.query()


def gap_program():
    """A program whose pairs are mostly in the gap, in main, subroutine and both handlers."""
    mask = program({'HALT'})
    at = 0
    while at < 0x400:
        code = isa.BY_FIRST[mask[at]]
        if code and code.mnemonic in ('MOV R1R0,XXH', 'MOV R3R2,XXH'):
            mask[at + 1] = 8 + draw.below(6)
        elif mask[at] == NOP and draw.chance(50):
            mask[at] = draw.pick(THROUGH_R1R0 + THROUGH_R3R2)
        elif code and code.mnemonic in ('INC Rn', 'DEC Rn', 'MOV Rn,A') and draw.chance(70):
            mask[at] = draw.pick(THROUGH_R1R0 + THROUGH_R3R2)
        at += code.length if code else 1
    assert ref.checker(mask)[1] == 'passed'
    return mask


def gap_lists():
    """Lists of events under masks that live in the gap, with the count asked for now and then."""
    for k in range(6):
        case = Case(gap_program())
        case.power_on(replace(random_options(), rate=draw.pick((0, 1, 2, 3, 255))), image=[8 + k] * ref.IMAGE)
        for _ in range(40):
            random_event(case)
            if draw.chance(25):
                case.query()
        before = case.m.gap
        case.run(5000)
        seen['strays in a list'] += case.m.gap
        seen['strays in its last Run'] += case.m.gap - before
        case.query()


# ---------------------------------------------------------------------------
# The files
# ---------------------------------------------------------------------------

def expect(what, names):
    """Prints a line of the statistics, and asserts that each name was met."""
    names = list(names)
    counts = [seen[name] for name in names]
    assert min(counts) > 0, f'{what}: not met: {[name for name in names if seen[name] == 0]}'
    print(f'{what}: {len(names)} of {len(names)}, {sum(counts)} times, '
          f'each at least {min(counts)}')


def statistics(data, output):
    readable = [first for first in range(256) if isa.BY_FIRST[first] is not None]
    print(f'cases {len(cases)}; lines {output.count(chr(10))}; steps one by one {seen["step"]}, '
          f'in Runs {seen["step in a Run"]}; vectors.bin {len(data)} bytes, '
          f'stdout {len(output)} bytes')
    assert seen['step'] >= 2000 and seen['step in a Run'] > 2 * 65535 and len(output) < 900_000
    expect('first bytes fetched', (f'fetched {first:02X}' for first in range(256)))
    expect('first bytes run without a fault', (f'ran {first:02X}' for first in readable))
    expect('lines of the summary run', (f'ran {row[0]}' for row in isa.TABLE))
    expect('first bytes that a second byte makes unreadable, or 35h',
           (f'fault 1 of {first:02X}' for first in range(256) if breakable(first)))
    expect('CALL in levels 1 and 2', (f'fault 2 of {first:02X} in level {level}'
                                      for first in range(0xF0, 0x100) for level in (1, 2)))
    expect('RET, RETI in level 0', (f'fault 3 of {first} in level 0' for first in ('2E', '2F')))
    expect('CALL, RET, RETI without a fault',
           ['CALL addr in level 0'] + [f'{name} in level {level}' for name in ('RET', 'RETI')
                                       for level in (1, 2)] + ['RETI changes CF'])
    expect('faults', (f'fault {n}' for n in (1, 2, 3)))
    expect('levels', (f'step in level {n}' for n in range(3)))
    expect('branches', (f'{name} {end}' for name in ref.BRANCHES for end in ('taken', 'not taken')))
    expect('branches whose moved PC has another bit 11',
           (f'bit 11 of the moved PC, from {bit}' for bit in (0, 1)))
    expect('carry flags', (f'{name} leaves CF {cf}' for name, *_ in isa.TABLE
                           if name.split(' ')[0] in CARRY for cf in (0, 1)))
    expect('events', ('power-on', 'Run', 'pins', 'INT', 'TMCLK', 'RES', 'step'))
    expect('interrupts', ('edge taken', 'TF taken', 'edge taken before TF'))
    expect('timer overflows by rate', (f'timer overflow at rate {rate}' for rate in ref.RATES))
    expect('steps with the timer running, by rate',
           (f'step with the timer running at rate {rate}' for rate in ref.RATES))
    expect('gap reads and writes', ('gap read', 'gap write'))
    once = [row[0] for row in isa.TABLE if row[0].startswith('READ') or '[' in row[0]]
    twice = [name for name in once if name.startswith(('INC', 'DEC')) or 'R0],A' in name and not name.startswith('MOV')]
    assert (len(once), len(twice)) == (22, 7)
    expect('instructions that count one', (f'{name} counts 1' for name in once if name not in twice))
    expect('instructions that count two', (f'{name} counts 2' for name in twice))
    expect('instructions that count none', (f'{row[0]} counts 0' for row in isa.TABLE))
    expect('ends of the gap', (f'data address {address:02X} by {first:02X}, counted {times}'
                               for first in THROUGH_R1R0 + THROUGH_R3R2
                               for address, inside in ((0x7F, 0), (0x80, 1), (0xDF, 1), (0xE0, 0))
                               for times in [inside * (1 + (isa.BY_FIRST[first].mnemonic in twice))]))
    expect('counts that stop', (f'count of {gap} and {more} more' for gap in range(65532, 65536) for more in (1, 2)))
    expect('counts cleared and kept', ('power-on clears a count', 'refused power-on keeps a count', 'RES keeps a count',
                                       'fault with both pairs in the gap'))
    expect('queries of the count', ('query', 'refused query'))
    expect('strays in lists of events', ('strays in a list', 'strays in its last Run'))
    expect('reads and writes at E0h-FFh', ('read at E0h-FFh', 'write at E0h-FFh'))
    expect('data addresses at the edges',
           (f'data address {address} by {code}' for address in ('00', '7F', '80', 'DF', 'E0', 'FF')
            for code in ('04', '05', '06', '07')))
    expect('sums of 15 and 16', (f'{code} of {acc} and {x} with CF {cf}'
                                 for code in ('08', '09', '0A', '0B')
                                 for acc, x in ((7, 8), (8, 8)) for cf in (0, 1)))
    expect('DAA about 9', (f'36 of {acc} and 0 with CF {cf}' for acc in (9, 10) for cf in (0, 1)))
    expect('table reads across a page end',
           [f'{name} at a page end' for name in ('READ R4A', 'READ MR0A', 'READF R4A',
                                                 'READF MR0A')] + ['READ at FFFh'])
    expect('round the end', ('second byte at 0', 'cycle count past its largest value'))
    expect('Runs', ('step in a Run', 'interrupt in a Run', 'Run of all its steps'))
    expect('stopped', ('step when halted', 'step when faulted', 'Run when halted',
                       'Run when faulted', 'Run ended early'))
    expect('pulses asleep', ('pulses asleep set TF', 'pulses asleep move the timer', 'pulses asleep move nothing'))
    expect('wakes', ('pins wakes', 'pins does not wake', 'INT wakes', 'INT does not wake'))
    expect('INT', [f'INT from {a} to {b}' for a in (0, 1) for b in (0, 1)]
           + ['INT falls on a faulted machine'])
    expect('refusals', [f'refusal {n} of power-on' for n in (2, 3, 4)]
           + ['refusal 1 of Run', 'refusal 3 of pins', 'refusal 3 of INT']
           + [f'refusal 5 of {name}' for name in ('Run', 'pins', 'INT', 'TMCLK', 'RES', 'step')])


def files():
    """All that is stored, as a dict from paths to bytes. Once in a run: the cases are one list."""
    for part in (directed, subroutines, data_edges, arithmetic, timer, interrupts, pins_and_int,
                 stopped, power_ons, refused, random_events, long_runs, pulses_asleep,
                 gap_edges, gap_all, gap_ends, gap_events, gap_lists):
        part()
    data = two(len(cases))
    for case in cases:
        data += case.mask + two(len(case.commands)) + b''.join(case.commands)
    output = ''.join(text + '\n' for case in cases for text in case.lines)
    statistics(data, output)
    return {CRATE / 'data' / 'vectors.bin': bytes(data), CRATE / 'stdout': output.encode()}


if __name__ == '__main__':
    stored.write_files(files())
