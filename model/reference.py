"""Reference model of the HT1130, written from documents 001, 01 and 02.

It follows document 01 in its order. Each function cites the sentence it
states. Functions take a machine and hand back a new one, or a Refused; the
machine handed in is never changed. Functions whose name starts with an
underscore work in place on a copy that is already checked.

Run as a program it is `panel`: it reads mask.bin and script.bin.
"""

import copy
from dataclasses import dataclass
from typing import List

import isa_table
from isa_table import Refused

MASK = 4096         # program bytes
IMAGE = 166         # ACC, R0-R4, 128 + 32 data nibbles
REPORT = 48         # bytes of one report
SOUND_OFF = 16
EXTERNAL = 255      # timer rate: external clock
GAP = range(0x80, 0xE0)     # data addresses without memory
MOST_STRAYS = 65535         # where the count of accesses to them stops

# ---------------------------------------------------------------------------
# The machine
# ---------------------------------------------------------------------------

# 'timer rate n (0-13 but not 6) or 255 for the external clock'
RATES = [0, 1, 2, 3, 4, 5, 7, 8, 9, 10, 11, 12, 13, EXTERNAL]


@dataclass(frozen=True)
class Options:
    """'timer rate; commons 3 or 4; a wake nibble each for PM, PS, PP'."""
    rate: int
    commons: int
    wake_pm: int
    wake_ps: int
    wake_pp: int


@dataclass
class Machine:
    """'The machine holds: ...'. Flags are 0 or 1."""
    acc: int
    r: List[int]            # R0 to R4
    data: List[int]         # 00h-7Fh, then E0h-FFh: 160 nibbles
    pc: int
    cf: int
    tf: int
    timer: int
    running: int
    enable: int
    held_edge: int
    level: int              # 0 main, 1 subroutine, 2 interrupt
    stack_address: int
    stack_carry: int
    halted: int
    fault: int
    pa: int
    sound_channel: int      # 16 = off
    sound_mode: int         # 0 once, 1 loop
    pm: int
    ps: int
    pp: int
    int_pin: int
    options: Options
    cycles: int             # 32 bits
    gap: int                # accesses to 80h-DFh since the last power-on: document 02, wish 6


def copy_machine(m):
    """A machine of its own, sharing no list with m."""
    other = copy.copy(m)
    other.r, other.data = list(m.r), list(m.data)
    return other


def data_index(address):
    """'Data memory 00h-7Fh and E0h-FFh'; None for 80h-DFh."""
    if address <= 0x7F:
        return address
    return address - 0xE0 + 0x80 if address >= 0xE0 else None


def data_read(m, address):
    """'Data addresses 80h-DFh read 0'."""
    i = data_index(address)
    return 0 if i is None else m.data[i]


def _data_write(m, address, value):
    """'Data addresses 80h-DFh ... ignore writes'."""
    i = data_index(address)
    if i is not None:
        m.data[i] = value


def pointer(m, high, low):
    """'M(R1,R0) is the nibble at 16 times R1 + R0, likewise M(R3,R2)'."""
    return 16 * m.r[high] + m.r[low]


def options_ok(o):
    """'Options: timer rate n (0-13 but not 6) or 255 ...; commons 3 or 4; wake'."""
    return (o.rate in RATES and o.commons in (3, 4) and
            all(0 <= w <= 15 for w in (o.wake_pm, o.wake_ps, o.wake_pp)))


def power_on(options, image):
    """'Power-on takes options and a starting image of 166 nibbles'; refusals 2, 3, 4."""
    if len(image) != IMAGE:
        return Refused(2)
    if not all(0 <= nibble <= 15 for nibble in image):
        return Refused(3)
    if not options_ok(options):
        return Refused(4)
    m = Machine(acc=image[0], r=list(image[1:6]), data=list(image[6:]),
                pc=0, cf=0, tf=0, timer=0, running=0, enable=0, held_edge=0, level=0,
                stack_address=0, stack_carry=0, halted=0, fault=0,
                pa=15, sound_channel=SOUND_OFF, sound_mode=0,
                pm=15, ps=15, pp=15, int_pin=1, options=options, cycles=0, gap=0)
    _reset(m)   # 'All else is as after RES, ports 15, INT 1, cycle count 0'
    return m


def _reset(m):
    """'RES sets PC, timer, TF, CF, enable flag, held edge, level, stack, halted and
    fault to 0, stops the timer, sets PA 15, sound off and once'."""
    m.pc = m.timer = m.tf = m.cf = m.enable = m.held_edge = 0
    m.level = m.stack_address = m.stack_carry = m.halted = m.fault = 0
    m.running = 0
    m.pa, m.sound_channel, m.sound_mode = 15, SOUND_OFF, 0


# ---------------------------------------------------------------------------
# Codes
# ---------------------------------------------------------------------------

def fetch(mask, address):
    """'The byte after FFFh is the one at 0'. None where it cannot be read."""
    return isa_table.read(mask[address], mask[(address + 1) % MASK])


def moved(instruction, address):
    """'PC moves on by the length, modulo 4,096, before the effect'."""
    return (address + instruction.code.length) % MASK


def fault_of(instruction, level):
    """'cannot be read gives fault 1'; CALL 'in level 1 or 2 it is fault 2';
    'RET and RETI in level 0 are fault 3'; 0 for none."""
    if instruction is None:
        return 1
    if instruction.code.mnemonic == 'CALL addr' and level != 0:
        return 2
    if instruction.code.mnemonic in ('RET', 'RETI') and level == 0:
        return 3
    return 0


def branch_target(instruction, moved_pc):
    """'A conditional branch keeps bit 11 of that moved PC'."""
    return (moved_pc & 0x800) | instruction.fields[-1]


def get(m, instruction, operand):
    """The value of an operand as the mnemonic writes it."""
    code, fields = instruction.code, instruction.fields
    if operand == 'A':
        return m.acc
    if operand == 'Rn':
        return m.r[fields[0]]
    if operand == '[R1R0]':
        return data_read(m, pointer(m, 1, 0))
    if operand == '[R3R2]':
        return data_read(m, pointer(m, 3, 2))
    if operand == 'XH':
        return fields[0]
    if operand == 'TMRL':
        return m.timer % 16
    if operand == 'TMRH':
        return m.timer // 16
    if operand == 'Pi':
        return {'PM': m.pm, 'PS': m.ps, 'PP': m.pp}[code.name]
    raise AssertionError(operand)


def _put(m, instruction, operand, value):
    """Writes a nibble to an operand as the mnemonic writes it."""
    if operand == 'A':
        m.acc = value
    elif operand == 'Rn':
        m.r[instruction.fields[0]] = value
    elif operand == '[R1R0]':
        _data_write(m, pointer(m, 1, 0), value)
    elif operand == '[R3R2]':
        _data_write(m, pointer(m, 3, 2), value)
    elif operand == 'TMRL':
        m.timer = m.timer // 16 * 16 + value
    elif operand == 'TMRH':
        m.timer = value * 16 + m.timer % 16
    elif operand == 'PA':
        m.pa = value
    else:
        raise AssertionError(operand)


# Document 001: 'Jump if ...'. n is the register or the bit.
BRANCHES = {
    'JC addr': lambda m, i: m.cf == 1,
    'JNC addr': lambda m, i: m.cf == 0,
    'JTMR addr': lambda m, i: m.tf == 1,
    'JAn addr': lambda m, i: (m.acc >> i.fields[0]) & 1 == 1,
    'JZ A,addr': lambda m, i: m.acc == 0,
    'JNZ A,addr': lambda m, i: m.acc != 0,
    'JNZ Rn,addr': lambda m, i: m.r[int(i.code.name[1])] != 0,
}


def _arithmetic(m, operation, x):
    """'ADD and ADC set CF to 1 when the sum is over 15, else 0. SUB adds 15 - operand
    and 1, SBC adds 15 - operand and CF'."""
    total = m.acc + {'ADD': x, 'ADC': x + m.cf,
                     'SUB': 15 - x + 1, 'SBC': 15 - x + m.cf}[operation]
    m.acc, m.cf = total % 16, int(total > 15)


def _rotate(m, operation):
    """'RL and RR copy the bit that goes round into CF; RLC and RRC go through CF'."""
    if operation in ('RL', 'RLC'):
        out = m.acc >> 3
        m.acc = (m.acc << 1) % 16 | (out if operation == 'RL' else m.cf)
    else:
        out = m.acc & 1
        m.acc = m.acc >> 1 | (out if operation == 'RR' else m.cf) << 3
    m.cf = out


def _table_read(mask, m, operation, form):
    """'READ uses the moved PC's bits 8-11 as its page, READF page 15'. R4A and MR0A forms."""
    page = m.pc >> 8 if operation == 'READ' else 15
    here = pointer(m, 1, 0)
    if form == 'R4A':
        byte = mask[256 * page + 16 * m.acc + data_read(m, here)]
        m.r[4], m.acc = byte // 16, byte % 16
    else:
        byte = mask[256 * page + 16 * m.acc + m.r[4]]
        _data_write(m, here, byte // 16)
        m.acc = byte % 16


def _effect(mask, m, i):
    """'Effects: ...', with the PC already moved and no fault."""
    mnemonic = i.code.mnemonic
    operation, _, rest = mnemonic.partition(' ')
    operands = rest.split(',')
    if operation in ('ADD', 'ADC', 'SUB', 'SBC'):
        _arithmetic(m, operation, get(m, i, operands[1]))
    elif operation in ('AND', 'OR', 'XOR'):
        x, y = get(m, i, operands[0]), get(m, i, operands[1])
        _put(m, i, operands[0], {'AND': x & y, 'OR': x | y, 'XOR': x ^ y}[operation])
    elif operation == 'INC':    # 'INC and DEC keep CF'
        _put(m, i, operands[0], (get(m, i, operands[0]) + 1) % 16)
    elif operation == 'DEC':
        _put(m, i, operands[0], (get(m, i, operands[0]) - 1) % 16)
    elif mnemonic == 'MOV R1R0,XXH':    # 'the first byte's nibble goes to R0 (R2)'
        m.r[0], m.r[1] = i.fields
    elif mnemonic == 'MOV R3R2,XXH':    # 'the second's to R1 (R3)'
        m.r[2], m.r[3] = i.fields
    elif mnemonic == 'MOV R4,XXH':
        m.r[4] = i.fields[0]
    elif operation in ('MOV', 'IN', 'OUT'):
        _put(m, i, operands[0], get(m, i, operands[1]))
    elif operation in ('RL', 'RLC', 'RR', 'RRC'):
        _rotate(m, operation)
    elif operation in ('READ', 'READF'):
        _table_read(mask, m, operation, operands[0])
    elif mnemonic == 'DAA':     # 'if ACC is over 9 or CF is 1, ACC + 6 and CF 1'
        if m.acc > 9 or m.cf == 1:
            m.acc, m.cf = (m.acc + 6) % 16, 1
    elif mnemonic == 'CLC':
        m.cf = 0
    elif mnemonic == 'STC':
        m.cf = 1
    elif mnemonic == 'EI':
        m.enable = 1
    elif mnemonic == 'DI':
        m.enable = 0
    elif mnemonic == 'NOP':
        pass
    elif mnemonic == 'TIMER XXH':
        m.timer = i.fields[0]
    elif mnemonic == 'TIMER ON':
        m.running = 1
    elif mnemonic == 'TIMER OFF':
        m.running = 0
    elif mnemonic == 'SOUND n':
        m.sound_channel = i.fields[0]
    elif mnemonic == 'SOUND A':
        m.sound_channel = m.acc
    elif mnemonic == 'SOUND ONE':   # 'SOUND ONE and SOUND LOOP set the mode only'
        m.sound_mode = 0
    elif mnemonic == 'SOUND LOOP':
        m.sound_mode = 1
    elif mnemonic == 'SOUND OFF':
        m.sound_channel = SOUND_OFF
    elif mnemonic == 'HALT':    # 'HALT runs, then halts'
        m.halted = 1
    elif mnemonic == 'JMP addr':
        m.pc = i.fields[0]
    elif mnemonic == 'CALL addr':   # 'stores the moved PC (the stack carry stays)'
        m.stack_address, m.level, m.pc = m.pc, 1, i.fields[0]
    elif mnemonic in ('RET', 'RETI'):   # 'load the stack address and enter level 0'
        m.pc, m.level = m.stack_address, 0
        if mnemonic == 'RETI':          # 'RETI sets CF from the stack carry'
            m.cf = m.stack_carry
    else:
        taken = BRANCHES[mnemonic](m, i)
        if mnemonic == 'JTMR addr':     # 'JTMR clears TF, taken or not'
            m.tf = 0
        if taken:
            m.pc = branch_target(i, m.pc)


# ---------------------------------------------------------------------------
# Strays into the gap (document 02, wish 6)
# ---------------------------------------------------------------------------

def accesses(m, instruction):
    """Data addresses that an instruction reads, and those that it writes. Told by its mnemonic, beside its effect: a pair
    in brackets is written where it stands first and read where something is made of it."""
    operation, _, rest = instruction.code.mnemonic.partition(' ')
    if operation in ('READ', 'READF'):      # 'ACC is bits 4-7 and M(R1,R0) bits 0-3', 'high to M(R1,R0)'
        here = [pointer(m, 1, 0)]
        return (here, []) if rest == 'R4A' else ([], here)
    reads, writes = [], []
    for pair, high, low in (('[R1R0]', 1, 0), ('[R3R2]', 3, 2)):
        if pair in rest:
            here = pointer(m, high, low)
            writes += [here] if rest.startswith(pair) else []
            reads += [here] if operation != 'MOV' or not rest.startswith(pair) else []
    return reads, writes


def strays(m, instruction):
    """How many of its accesses fall in the gap: 'A read-modify-write counts two'."""
    reads, writes = accesses(m, instruction)
    return sum(address in GAP for address in reads + writes)


def gap_count(m):
    """'the count has its own query': 'the lesser of 65,535 and the number of gap accesses since the last
    power-on'; refusal 5."""
    return m.gap if machine_ok(m) else Refused(5)


# ---------------------------------------------------------------------------
# One step, and events
# ---------------------------------------------------------------------------

def _timer_on(m, count):
    """'moves on by ...; passing 255 to 0 sets TF'."""
    if m.timer + count > 255:
        m.tf = 1
    m.timer = (m.timer + count) % 256


def _spend(m, c):
    """'With c cycles spent and T = 4 times the old cycle count modulo 8,192, a timer
    running after the effect on rate n moves on by floor((T + 4c)/2^n) - floor(T/2^n)'."""
    t = 4 * m.cycles % 8192
    if m.running and m.options.rate != EXTERNAL:
        unit = 2 ** m.options.rate
        _timer_on(m, (t + 4 * c) // unit - t // unit)
    m.cycles = (m.cycles + c) % 2 ** 32     # 'goes on past its largest value to zero'


def _step(mask, m):
    """'A step on a machine neither halted nor faulted: ...'."""
    if m.halted or m.fault:     # 'A step when halted or faulted changes nothing'
        return
    if m.level == 0 and m.enable and (m.held_edge or m.tf):
        # 'the old PC and CF go to the stack, level 2, 2 cycles'
        m.stack_address, m.stack_carry, m.level = m.pc, m.cf, 2
        if m.held_edge:         # 'a held edge is taken (PC 8, held edge cleared)'
            m.pc, m.held_edge = 8, 0
        else:                   # 'or else TF (PC 4, TF cleared)'
            m.pc, m.tf = 4, 0
        _spend(m, 2)
        return
    i = fetch(mask, m.pc)
    fault = fault_of(i, m.level)
    if fault:   # 'A fault leaves the machine as before ..., with the fault set'
        m.fault = fault
        return
    m.gap = min(MOST_STRAYS, m.gap + strays(m, i))      # after the fault: 'a refused or faulting instruction none'
    m.pc = moved(i, m.pc)
    _effect(mask, m, i)
    _spend(m, i.code.cycles)


def step(mask, m):
    """'One step': refusals 1 and 5."""
    if len(mask) != MASK:
        return Refused(1)
    if not machine_ok(m):
        return Refused(5)
    m = copy_machine(m)
    _step(mask, m)
    return m


def run(mask, m, n):
    """Kind 2: 'Run: two-byte step count. Ends early when halted or faulted'."""
    if len(mask) != MASK:
        return Refused(1)
    if not machine_ok(m):
        return Refused(5)
    m = copy_machine(m)
    for _ in range(n):
        if m.halted or m.fault:
            break
        _step(mask, m)
    return m


def event_power_on(_m, options, image):
    """Kind 1: 'a further power-on has options and an image of its own': the machine before it is not looked at."""
    return power_on(options, image)


def event_run(m, mask, n):
    """Kind 2."""
    return run(mask, m, n)


def event_pins(m, pm, ps, pp):
    """Kind 3: 'A falling port bit whose wake bit is 1 does so only when halted'."""
    if not all(0 <= port <= 15 for port in (pm, ps, pp)):
        return Refused(3)
    if not machine_ok(m):
        return Refused(5)
    m, o = copy_machine(m), m.options
    falling = (m.pm & ~pm & o.wake_pm) | (m.ps & ~ps & o.wake_ps) | (m.pp & ~pp & o.wake_pp)
    if m.halted and falling:
        m.held_edge, m.halted = 1, 0
    m.pm, m.ps, m.pp = pm, ps, pp
    return m


def event_int(m, level):
    """Kind 4: 'A falling INT edge always sets the held edge and wakes'."""
    if level not in (0, 1):
        return Refused(3)
    if not machine_ok(m):
        return Refused(5)
    m = copy_machine(m)
    if m.int_pin == 1 and level == 0:
        m.held_edge, m.halted = 1, 0
    m.int_pin = level
    return m


def event_tmclk(m, count):
    """Kind 5: 'on the external clock, running .. the timer moves on by it modulo 256, TF set
    if it passed 255'; document 02, wish 1: 'when halted too'."""
    if not machine_ok(m):
        return Refused(5)
    m = copy_machine(m)
    if m.options.rate == EXTERNAL and m.running:
        _timer_on(m, count)
    return m


def event_res(m):
    """Kind 6: RES; 'keeps ACC, R0-R4, data memory, pins, options and cycle count', and the strays 'since the last
    power-on'."""
    if not machine_ok(m):
        return Refused(5)
    m = copy_machine(m)
    _reset(m)
    return m


reset = event_res

# 'Script records are little-endian: two-byte payload length, two-byte kind, payload'.
PAYLOAD = {1: 6, 2: 2, 3: 3, 4: 1, 5: 2, 6: 0}


def word(two):
    """A little-endian two-byte number."""
    return two[0] + 256 * two[1]


def record_options(payload):
    """'1 power-on: rate, commons, wake PM, PS, PP, one nibble that fills the image'."""
    return Options(*payload[:5])


def apply_record(mask, m, kind, payload):
    """One script record applied to m; m is None before the first."""
    if kind == 1:
        options, image = record_options(payload), [payload[5]] * IMAGE
        return power_on(options, image) if m is None else event_power_on(m, options, image)
    if kind == 2:
        return event_run(m, mask, word(payload))
    if kind == 3:
        return event_pins(m, *payload)
    if kind == 4:
        return event_int(m, payload[0])
    if kind == 5:
        return event_tmclk(m, word(payload))
    return event_res(m)


def display(m):
    """'Nibble s is the one at E0h + s, bit c for common c; with 3 commons bit 3 shows 0;
    halted shows all 0'."""
    if not machine_ok(m):
        return Refused(5)
    if m.halted:
        return [0] * 32
    lit = 7 if m.options.commons == 3 else 15
    return [data_read(m, 0xE0 + s) & lit for s in range(32)]


def report(m, buffer=bytes(REPORT)):
    """'length 44, kind 16, PC (2), cycle count (4), level, halted, fault, PA, sound
    channel, sound mode, 32 display nibbles'; refusals 2 and 5."""
    if len(buffer) != REPORT:
        return Refused(2)
    if not machine_ok(m):
        return Refused(5)
    return (bytes([44, 0, 16, 0]) + m.pc.to_bytes(2, 'little') + m.cycles.to_bytes(4, 'little')
            + bytes([m.level, m.halted, m.fault, m.pa, m.sound_channel, m.sound_mode])
            + bytes(display(m)))


def reports(mask, records):
    """'Each record yields a report', one after the other."""
    m = None
    for _, kind, payload in records:
        m = apply_record(mask, m, kind, payload)
        yield report(m)


def run_script(mask, script, buffer):
    """The report buffer after the script: 'A longer report buffer keeps its bytes after
    the last report'; refusals 1, 6, 7, 8, 3, 4, 9."""
    if len(mask) != MASK:
        return Refused(1)
    records = check_script(script)
    if isinstance(records, Refused):
        return records
    if len(buffer) < REPORT * len(records):
        return Refused(9)
    return b''.join(reports(mask, records)) + bytes(buffer[REPORT * len(records):])


def panel(mask, script):
    """'prints each report as a line of 96 upper-case hexadecimal digits, or one line
    refused N at P'."""
    refused = None
    if len(mask) != MASK:
        refused = Refused(1)
    else:
        records = check_script(script)
        if isinstance(records, Refused):
            refused = records
    if refused:
        return [f'refused {refused.number} at {refused.offset}']
    return [one.hex().upper() for one in reports(mask, records)]


# ---------------------------------------------------------------------------
# Marks
# ---------------------------------------------------------------------------

def successors(mask, address, level):
    """'A forbidden pair has no successors. Successors of any other pair: ...'."""
    i = fetch(mask, address)
    if fault_of(i, level):
        return []
    mnemonic, after = i.code.mnemonic, moved(i, address)
    if mnemonic in ('RET', 'RETI'):     # 'RET and RETI none'
        return []
    if mnemonic == 'JMP addr':          # 'JMP only its target'
        return [(i.fields[0], level)]
    if mnemonic == 'CALL addr':         # 'its target in level 1 and the moved address'
        return [(i.fields[0], 1), (after, 0)]
    result = [(after, level)]           # 'the moved address in the same level'
    if mnemonic in BRANCHES:            # 'a branch also its target'
        result.append((branch_target(i, after), level))
    if mnemonic == 'EI':                # 'EI also 4 and 8 in level 2'
        result += [(4, 2), (8, 2)]
    return result


def checker(mask, marks=bytes(MASK)):
    """'writes 4,096 mark bytes ... for exactly the pairs that chains from address 0,
    level 0 reach. It answers passed, or fault, address and level of the lowest forbidden
    marked pair'; refusals 1 and 2."""
    if len(mask) != MASK:
        return Refused(1)
    if len(marks) != MASK:
        return Refused(2)
    reached, todo = {(0, 0)}, [(0, 0)]
    while todo:
        for pair in successors(mask, *todo.pop()):
            if pair not in reached:
                reached.add(pair)
                todo.append(pair)
    marks = bytearray(MASK)
    for address, level in reached:      # '1 level 0, 2 level 1, 4 level 2, added'
        marks[address] += 1 << level
    return bytes(marks), verdict(mask, reached)


def verdict(mask, reached):
    """'passed, or fault, address and level of the lowest forbidden marked pair'."""
    for address, level in sorted(reached):      # 'address first, then level'
        fault = fault_of(fetch(mask, address), level)
        if fault:
            return fault, address, level
    return 'passed'


# ---------------------------------------------------------------------------
# The way to a forbidden place (document 02, wish 2)
# ---------------------------------------------------------------------------

def counts(mask):
    """Each reached pair with the count of pairs of a shortest chain to it, by layers."""
    found, layer, count = {}, {(0, 0)}, 0
    while layer:
        count += 1
        found.update((pair, count) for pair in layer)
        layer = {after for pair in layer for after in successors(mask, *pair) if after not in found}
    return found


def way(mask, room):
    """'10 if the mask passes, after 1; 11 if the list is too short, after 10'; else the pairs of
    a shortest chain to the one that the checker named. 'Which of several is free'."""
    if len(mask) != MASK:
        return Refused(1)
    count = counts(mask)
    answer = verdict(mask, count)
    if answer == 'passed':
        return Refused(10)
    chain = [answer[1:]]
    if room < 3 * count[chain[0]]:
        return Refused(11)
    layers = {}
    for pair, number in count.items():
        layers.setdefault(number, []).append(pair)
    for number in range(count[chain[0]] - 1, 0, -1):
        chain.append(min(pair for pair in layers[number] if chain[-1] in successors(mask, *pair)))
    return chain[::-1]


def wrong_way(mask, pairs, end, shortest):
    """What is wrong with these pairs as a way to `end`, where a shortest has so many; None if nothing."""
    if pairs[:1] != [(0, 0)]:
        return 'it does not start at address 0, level 0'
    for before, after in zip(pairs, pairs[1:]):
        if after not in successors(mask, *before):
            return f'{after} is no successor of {before}'
    if pairs[-1] != end:
        return f'it does not end at {end}'
    return None if len(pairs) == shortest else f'it has {len(pairs)} pairs, a shortest has {shortest}'


def listed(pairs):
    """'three bytes a pair (address low byte first, level)'."""
    return b''.join(bytes([address % 256, address // 256, level]) for address, level in pairs)


LEVELS = ('main', 'subroutine', 'interrupt')


def way_line(mask, address, level):
    """A pair's line in what `checkmask` prints."""
    first, second = mask[address], mask[(address + 1) % MASK]
    two = isa_table.LENGTH_CYCLES[first][0] == 2
    i = fetch(mask, address)
    text = 'cannot be read' if i is None else isa_table.text(isa_table.placed(i, moved(i, address)))
    return f'{address:03X} {LEVELS[level]:<10} {first:02X} {f"{second:02X}" if two else "  "} {text}'


def verdict_line(answer):
    """The first line that `checkmask` prints for a mask of 4,096 bytes."""
    return answer if answer == 'passed' else f'fault {answer[0]} at {answer[1]:03X} level {answer[2]}'


# ---------------------------------------------------------------------------
# How long an edge is held (document 02, wish 5)
# ---------------------------------------------------------------------------

NOT_REACHED, NO_BOUND = 'not reached', 'no bound'


def onward(mask, address, level):
    """The successors above level 0 that are followed: 'The vector successors of EI are not'."""
    after = successors(mask, address, level)
    return set(after[:1] if fetch(mask, address).code.mnemonic == 'EI' else after)


def bounds(mask, marks):
    """Each marked pair above level 0 of a mask that passes with its answer: 'the largest cycle total
    over all chains from it to a return, the return included, or no bound exactly when a loop or a HALT
    can be reached'. A pair is settled once all that follow it are, returns first; a HALT never is, and
    so neither is what reaches one, or a loop."""
    follow = {(address, level): onward(mask, address, level)
              for address, mark in enumerate(marks) for level in (1, 2) if mark >> level & 1}
    before = {pair: [] for pair in follow}
    for pair, after in follow.items():
        for one in after:
            before[one].append(pair)
    code = {pair: fetch(mask, pair[0]).code for pair in follow}
    waits = {pair: len(after) + (code[pair].mnemonic == 'HALT') for pair, after in follow.items()}
    most, answers = dict.fromkeys(follow, 0), dict.fromkeys(follow, NO_BOUND)
    ready = [pair for pair, count in waits.items() if count == 0]
    while ready:
        pair = ready.pop()
        answers[pair] = most[pair] + code[pair].cycles
        for one in before[pair]:
            most[one] = max(most[one], answers[pair])
            waits[one] -= 1
            if waits[one] == 0:
                ready.append(one)
    return answers


def bound(mask, address, level):
    """'15 if the mask fails, after 1 and 5 (a pair out of range)'; 'not reached if it is unmarked or in level 0'."""
    if len(mask) != MASK:
        return Refused(1)
    if not (0 <= address < MASK and 0 <= level <= 2):
        return Refused(5)
    marks, answer = checker(mask)
    if answer != 'passed':
        return Refused(15)
    return bounds(mask, marks).get((address, level), NOT_REACHED)


def call_targets(mask, marks):
    """The targets of the CALLs that are marked in level 0."""
    codes = [fetch(mask, address) for address, mark in enumerate(marks) if mark & 1]
    return sorted({i.fields[0] for i in codes if i.code.mnemonic == 'CALL addr'})


def longest_wait(answers):
    """The largest answer with the first pair that has it, as `checkmask` prints it."""
    if not answers:
        return 'not reached'
    largest = NO_BOUND if NO_BOUND in answers.values() else max(answers.values())
    address, level = min(pair for pair, answer in answers.items() if answer == largest)
    return f'{largest} at {address:03X} level {level}'


def bound_lines(mask, marks, answers):
    """What `checkmask` prints after `passed`."""
    asked = [(4, 2), (8, 2)] + [(target, 1) for target in call_targets(mask, marks)]
    return [f'bound at {address:03X} level {level}: {answers.get((address, level), NOT_REACHED)}'
            for address, level in asked] + [f'longest wait: {longest_wait(answers)}']


def checkmask(mask):
    """The lines of `checkmask`; the way is one of several that may be as short."""
    if len(mask) != MASK:
        return ['refused 1']
    marks, answer = checker(mask)
    if answer == 'passed':
        return [answer] + bound_lines(mask, marks, bounds(mask, marks))
    return [verdict_line(answer)] + [way_line(mask, *pair) for pair in way(mask, 3 * 3 * MASK)]


# ---------------------------------------------------------------------------
# Refused inputs
# ---------------------------------------------------------------------------

def machine_ok(m):
    """5: 'machine field outside its range (its nibbles and options too), ... or halted
    with a fault'."""
    flags = (m.cf, m.tf, m.running, m.enable, m.held_edge, m.stack_carry, m.halted,
             m.sound_mode, m.int_pin)
    nibbles = (m.acc, *m.r, *m.data, m.pa, m.pm, m.ps, m.pp)
    return (len(m.r) == 5 and len(m.data) == 160
            and all(0 <= flag <= 1 for flag in flags)
            and all(0 <= nibble <= 15 for nibble in nibbles)
            and 0 <= m.pc <= 4095 and 0 <= m.stack_address <= 4095
            and 0 <= m.timer <= 255 and 0 <= m.level <= 2 and 0 <= m.fault <= 3
            and 0 <= m.sound_channel <= SOUND_OFF and 0 <= m.cycles < 2 ** 32 and 0 <= m.gap <= MOST_STRAYS
            and options_ok(m.options) and not (m.halted and m.fault))


def read_at(mask, address):
    """5: 'address to read at over 4,095'. The instruction, or None; refusals 1 and 5."""
    if len(mask) != MASK:
        return Refused(1)
    if not 0 <= address < MASK:
        return Refused(5)
    return fetch(mask, address)


def record_value_ok(kind, payload):
    """3: 'in an ... event or record: nibble other than an option over 15, INT over 1'."""
    if kind == 1:
        return payload[5] <= 15
    if kind == 3:
        return all(port <= 15 for port in payload)
    return kind != 4 or payload[0] <= 1


def check_script(script):
    """'6 and 7 are judged record by record ...; the first bad record decides. Then comes 8;
    then 3 over all records, then 4'. The records as (offset, kind, payload)."""
    if len(script) > 65535:             # 'script over 65,535 bytes (offset 0)'
        return Refused(6)
    records, at = [], 0
    while at < len(script):
        head = script[at:at + 4]
        if len(head) < 4 or at + 4 + word(head) > len(script):
            return Refused(6, at)       # '6 first in a record cut off'
        length, kind = word(head), word(head[2:])
        if kind not in PAYLOAD:         # 'an unknown kind gives 7'
            return Refused(7, at)
        if length != PAYLOAD[kind]:     # 'payload length wrong'
            return Refused(6, at)
        records.append((at, kind, bytes(script[at + 4:at + 4 + length])))
        at += 4 + length
    if not records or records[0][1] != 1:       # 'first record not kind 1, or no record'
        return Refused(8)
    for at, kind, payload in records:
        if not record_value_ok(kind, payload):
            return Refused(3, at)
    for at, kind, payload in records:   # 'option handed in at power-on ... outside its list'
        if kind == 1 and not options_ok(record_options(payload)):
            return Refused(4, at)
    return records


def read_file(name):
    """'A missing file counts as empty'."""
    try:
        with open(name, 'rb') as file:
            return file.read()
    except FileNotFoundError:
        return b''


if __name__ == '__main__':
    for output in panel(read_file('mask.bin'), read_file('script.bin')):
        print(output)
