"""Plain checks of the reference model against document 01's examples, and cases of
our own for the trickier rules. Prints 'N checks passed'."""

import random
from dataclasses import fields, replace

import isa_table as isa
import reference as ref
from isa_table import Refused
from reference import Options

checks = 0


def same(got, want, what):
    global checks
    assert got == want, f'{what}: got {got!r}, want {want!r}'
    checks += 1


def hold(what, m, **want):
    for field, value in want.items():
        same(getattr(m, field), value, f'{what}: {field}')


def mask(*parts, fill=0x3E):
    """A mask of NOPs with hex text at addresses: mask((0, '75 30'), ...)."""
    image = bytearray([fill] * 4096)
    for address, text in parts:
        for k, byte in enumerate(bytes.fromhex(text)):
            image[(address + k) % 4096] = byte
    return bytes(image)


OPTIONS = Options(rate=13, commons=4, wake_pm=0, wake_ps=0, wake_pp=0)


def machine(options=OPTIONS, **values):
    """A powered-on machine with some fields set."""
    return replace(ref.power_on(options, [0] * 166), **values)


def one(text, at=0, m=None, **values):
    """One step of hex text at an address."""
    m = m or machine(**values)
    return ref.step(mask((at, text)), replace(m, pc=at))


# --- Instruction table ------------------------------------------------------

def test_table():
    same(len(isa.TABLE), 73, 'lines of the summary')
    same([b for b in range(256) if isa.BY_FIRST[b] is None], [0x35], 'first bytes without a code')
    same(isa.LENGTH_CYCLES[0x35], (0, 0), 'length and cycles of 35h')
    # Each code fits itself alone, and write undoes read on all 65,536 byte pairs.
    unread = 0
    for first in range(256):
        for second in range(256):
            i = isa.read(first, second)
            if i is None:
                unread += 1
                continue
            both = bytes([first, second])
            assert isa.write(i) == both[:i.code.length]
    # 35h: 256; HALT: 255; 40-46h, 5dh, 6dh: 240 each.
    same(unread, 256 + 255 + (7 + 32) * 240, 'unreadable byte pairs')
    same(isa.line(0x40, 0x0F), '40 0F ADD A,0FH 2 2 40 0F', 'ADD A')
    same(isa.line(0x40, 0x10), '40 10 unreadable 2 2 -', 'ADD A, second byte 10h')
    same(isa.line(0x35, 0x00), '35 00 unreadable 0 0 -', '35h')
    same(isa.line(0x37, 0x3E), '37 3E HALT 2 2 37 3E', 'HALT')
    same(isa.line(0x37, 0x0F), '37 0F unreadable 2 2 -', 'HALT, second byte 0Fh')
    same(isa.line(0x53, 0x0F), '53 0F MOV R1R0,0F3H 2 2 53 0F', 'MOV R1R0')
    same(isa.line(0x16, 0xFF), '16 FF INC R3 1 1 16', 'INC R3')
    same(isa.line(0x9F, 0xFF), '9F FF JA3 0FFFH 2 2 9F FF', 'JA3 in the upper half')
    same(isa.line(0x9F, 0x3E), '9F 3E JA3 73EH 2 2 9F 3E', 'JA3 in the lower half')
    same(isa.line(0xD8, 0x0F), 'D8 0F JNZ R4,00FH 2 2 D8 0F', 'JNZ R4')
    same(isa.line(0xE1, 0xFF), 'E1 FF JMP 1FFH 2 2 E1 FF', 'JMP')
    same(isa.line(0x4C, 0x00), '4C 00 READ R4A 1 2 4C', 'READ R4A')
    same(isa.line(0x34, 0x00), '34 00 IN A,PP 1 1 34', 'IN A,PP')
    same(isa.line(0x45, 0x0F), '45 0F SOUND 0FH 2 2 45 0F', 'SOUND n')
    same(isa.line(0x47, 0x3E), '47 3E TIMER 3EH 2 2 47 3E', 'TIMER XXH')
    inc_rn, jump = isa.BY_FIRST[0x10], isa.BY_FIRST[0xE0]
    same(isa.write(isa.Instruction(inc_rn, (5,))), Refused(3), 'INC R5')
    same(isa.write(isa.Instruction(jump, (4096,))), Refused(3), 'JMP 4096')
    same(isa.write(isa.Instruction(jump, (4095,))), b'\xEF\xFF', 'JMP 4095')
    # Document 01's own list of codes.
    seen = {
        '04': 'MOV A,[R1R0]', '05': 'MOV [R1R0],A', '06': 'MOV A,[R3R2]', '07': 'MOV [R3R2],A',
        '08': 'ADC A,[R1R0]', '09': 'ADD A,[R1R0]', '0D': 'DEC [R1R0]', '0F': 'DEC [R3R2]',
        '19': 'DEC R4', '1A': 'AND A,[R1R0]', '1C': 'OR A,[R1R0]', '1D': 'AND [R1R0],A',
        '1F': 'OR [R1R0],A', '28': 'MOV R4,A', '29': 'MOV A,R4', '2A': 'CLC', '30': 'OUT PA,A',
        '36': 'DAA', '3A': 'MOV A,TMRL', '3B': 'MOV A,TMRH', '3C': 'MOV TMRL,A',
        '3D': 'MOV TMRH,A', '3E': 'NOP', '3F': 'DEC A', '40': 'ADD A,7H', '42': 'AND A,7H',
        '44': 'OR A,7H', '46': 'MOV R4,7H', '4C': 'READ R4A', '4E': 'READ MR0A',
        '52': 'MOV R1R0,72H', '62': 'MOV R3R2,72H', '72': 'MOV A,2H', 'A0': 'JNZ R0,007H',
        'A8': 'JNZ R1,007H', 'B0': 'JZ A,007H', 'B8': 'JNZ A,007H', 'D0': 'JTMR 007H',
        'D8': 'JNZ R4,007H', 'F0': 'CALL 007H', 'FF': 'CALL 0F07H',
    }
    for first, reading in seen.items():
        same(isa.text(isa.read(int(first, 16), 7)), reading, f'code {first}')


# --- Proved table -----------------------------------------------------------

def test_proved_table():
    hold('ADD 9+8', one('40 08', acc=9), acc=1, cf=1)
    hold('ADC 15+15+1', one('08', acc=15, cf=1, data=[15] * 160), acc=15, cf=1)
    hold('DAA 4 with CF 1', one('36', acc=4, cf=1), acc=10, cf=1)
    hold('DAA 9 with CF 0', one('36', acc=9), acc=9, cf=0)
    hold('DEC A of 0', one('3F'), acc=15, cf=0)
    hold('Data address 80h', one('04', acc=7, r=[0, 8, 0, 0, 0], data=[15] * 160), acc=0)
    hold('JZ at 7FEh', one('B0 10', at=0x7FE), pc=0x810)
    hold('JZ at 7FDh', one('B0 10', at=0x7FD), pc=0x010)
    m = replace(machine(), pc=0x1FF)
    m = ref.step(mask((0x1FF, '4C'), (0x100, 'A1'), (0x200, 'B2')), m)
    hold('READ R4A at 1FFh', m, r=[0, 0, 0, 0, 0xB], acc=2, pc=0x200, cycles=2)
    m = machine(replace(OPTIONS, rate=2), running=1, timer=254)
    m = ref.run(mask(), m, 2)
    hold('Rate 2, two NOPs', m, timer=0, tf=1, cycles=2)
    m = ref.step(mask(), machine(enable=1, held_edge=1, tf=1))
    hold('Held edge with TF', m, pc=8, tf=1, held_edge=0, level=2, timer=0)
    same(ref.checker(mask()), (bytes([1]) * 4096, 'passed'), 'all-3E mask')
    same(ref.checker(mask((0, '40 15')))[1], (1, 0, 0), 'mask 40 15')
    same(ref.checker(mask((0, 'F0 10')))[1], (2, 0, 1), 'mask F0 10')


# --- Panel example ----------------------------------------------------------

SCRIPT = bytes.fromhex('06 00 01 00 02 04 00 00 00 00  02 00 02 00 02 00')
POWER_ON = SCRIPT[:10]
RUN_2 = SCRIPT[10:]


def refused(script, m=mask()):
    return ref.panel(m, bytes.fromhex(script) if isinstance(script, str) else script)


def test_panel():
    same(ref.panel(mask((0, '75 30')), SCRIPT),
         ['2C0010000000000000000000000F1000' + 64 * '0',
          '2C001000020002000000000000051000' + 64 * '0'], 'panel example')
    # Display nibbles, 4 and 3 commons: image filled with F.
    for commons, shown in ((4, '0F'), (3, '07')):
        script = bytes([6, 0, 1, 0, 2, commons, 0, 0, 0, 15])
        same(ref.panel(mask(), script),
             ['2C0010000000000000000000000F1000' + 32 * shown], f'{commons} commons')
    # Halted: PC 2, 2 cycles, halted 1, display 0.
    script = bytes([6, 0, 1, 0, 2, 4, 0, 0, 0, 15]) + RUN_2
    same(ref.panel(mask((0, '37 3E')), script)[1],
         '2C0010000200020000000001000F1000' + 64 * '0', 'halted report')
    # Faulted: nothing else changes.
    same(ref.panel(mask((0, '35')), SCRIPT)[1],
         '2C0010000000000000000000010F1000' + 64 * '0', 'faulted report')


# --- Refused inputs ---------------------------------------------------------

def test_refusals():
    m = machine()
    same(ref.step(bytes(4095), m), Refused(1), 'mask of 4,095')
    same(ref.run(bytes(4095), m, 0), Refused(1), 'Run with mask of 4,095')
    same(ref.checker(bytes(4095)), Refused(1), 'checker, mask of 4,095')
    same(ref.checker(bytes(4095), bytes(4097)), Refused(1), '1 before 2')
    same(ref.panel(bytes(4095), b''), ['refused 1 at 0'], 'panel, mask of 4,095')
    same(ref.panel(b'', b''), ['refused 1 at 0'], 'panel, both files missing')
    same(ref.checker(mask(), bytes(4097)), Refused(2), 'marks of 4,097')
    same(ref.report(m, bytes(47)), Refused(2), 'single report of 47')
    same(ref.power_on(OPTIONS, [0] * 165), Refused(2), 'image of 165')
    bad = replace(OPTIONS, rate=6)
    same(ref.power_on(bad, [16] * 165), Refused(2), '2 before 3 and 4')
    same(ref.power_on(bad, [0] * 165 + [16]), Refused(3), '3 before 4')
    same(ref.power_on(bad, [0] * 166), Refused(4), 'rate 6')
    same(ref.power_on(replace(OPTIONS, commons=2), [0] * 166), Refused(4), 'commons 2')
    same(ref.power_on(replace(OPTIONS, rate=14), [0] * 166), Refused(4), 'rate 14')
    same(ref.power_on(replace(OPTIONS, wake_pp=16), [0] * 166), Refused(4), 'wake nibble 16')
    same(ref.event_pins(m, 16, 0, 0), Refused(3), 'PM 16')
    same(ref.event_int(m, 2), Refused(3), 'INT 2')
    broken = machine(pc=4096)
    same(ref.step(mask(), broken), Refused(5), 'PC 4,096')
    same(ref.event_pins(broken, 16, 0, 0), Refused(3), '3 before 5')
    same(ref.event_power_on(broken, OPTIONS, [0] * 166), ref.power_on(OPTIONS, [0] * 166), 'power-on over PC 4,096')
    same(ref.event_power_on(broken, bad, [0] * 166), Refused(4), 'rate 6 over PC 4,096')
    same(ref.event_res(machine(halted=1, fault=1)), Refused(5), 'halted with a fault')
    same(ref.read_at(mask(), 4096), Refused(5), 'read at 4,096')
    # Every field of the machine has a range.
    limits = dict(acc=15, pc=4095, cf=1, tf=1, timer=255, running=1, enable=1, held_edge=1,
                  level=2, stack_address=4095, stack_carry=1, halted=1, fault=3, pa=15,
                  sound_channel=16, sound_mode=1, pm=15, ps=15, pp=15, int_pin=1,
                  cycles=2 ** 32 - 1, gap=65535)
    covered = set(limits) | {'r', 'data', 'options'}
    same(covered, {f.name for f in fields(ref.Machine)}, 'fields of the machine')
    for field, limit in limits.items():
        same(ref.machine_ok(machine(**{field: limit})), True, f'{field} {limit}')
        same(ref.event_res(machine(**{field: limit + 1})), Refused(5), f'{field} {limit + 1}')
    same(ref.event_res(machine(r=[0, 0, 16, 0, 0])), Refused(5), 'R2 16')
    same(ref.event_res(machine(data=[0] * 159 + [16])), Refused(5), 'data FFh 16')
    same(ref.event_res(machine(options=OPTIONS, pm=3, pp=16)), Refused(5), 'PP 16')
    same(ref.event_res(replace(m, options=bad)), Refused(5), 'machine with rate 6')
    # Scripts.
    same(refused('05 00 06'), ['refused 6 at 0'], '05 00 06')
    same(refused('00 00 09 00'), ['refused 7 at 0'], '00 00 09 00')
    same(refused(''), ['refused 8 at 0'], 'empty script')
    same(refused('00 00 06 00'), ['refused 8 at 0'], 'first record RES')
    same(refused(bytes(65536)), ['refused 6 at 0'], 'script of 65,536')
    same(refused('01 00 09 00'), ['refused 6 at 0'], 'unknown kind, cut off')
    same(refused('01 00 06 00 00'), ['refused 6 at 0'], 'RES with a payload')
    same(refused(SCRIPT + bytes.fromhex('00 00 09 00 05')), ['refused 7 at 16'], '7, then 6')
    same(refused('00 00 06 00 00 00 00 00'), ['refused 7 at 4'], '7 before 8')
    bad_option = bytes([6, 0, 1, 0, 6, 4, 0, 0, 0, 0])
    bad_pin = bytes([3, 0, 3, 0, 16, 0, 0])
    same(refused(bad_option), ['refused 4 at 0'], 'script, rate 6')
    same(refused(bad_option + bad_pin), ['refused 3 at 10'], '3 before 4 over all records')
    same(refused(bad_pin), ['refused 8 at 0'], '8 before 3')
    same(refused(POWER_ON + bytes([6, 0, 1, 0, 2, 4, 16, 0, 0, 0])), ['refused 4 at 10'],
         'wake nibble 16 in a later power-on')
    same(refused(bytes([6, 0, 1, 0, 2, 4, 0, 0, 0, 16])), ['refused 3 at 0'], 'fill nibble 16')
    same(refused(POWER_ON + bytes([1, 0, 4, 0, 2])), ['refused 3 at 10'], 'script, INT 2')
    same(ref.run_script(mask(), POWER_ON, bytes(47)), Refused(9), '47 for one')
    out = ref.run_script(mask(), POWER_ON, bytes([170]) * 50)
    same((len(out), out[:4], out[48:]), (50, b'\x2C\0\x10\0', b'\xAA\xAA'), 'longer buffer')


# --- Power-on and RES -------------------------------------------------------

def test_power_on():
    image = [n % 16 for n in range(166)]
    m = ref.power_on(OPTIONS, image)
    hold('power-on', m, acc=0, r=[1, 2, 3, 4, 5], data=image[6:], pa=15, sound_channel=16,
         sound_mode=0, pm=15, ps=15, pp=15, int_pin=1, cycles=0)
    # Data: 7Fh is nibble 127, E0h nibble 128.
    same([ref.data_read(m, a) for a in (0x7F, 0x80, 0xDF, 0xE0, 0xFF)],
         [image[133], 0, 0, image[134], image[165]], 'data addresses')
    busy = replace(m, pc=5, timer=9, tf=1, cf=1, enable=1, held_edge=1, level=2,
                   stack_address=7, stack_carry=1, fault=3, running=1, pa=2, sound_channel=4,
                   sound_mode=1, pm=1, ps=2, pp=3, int_pin=0, cycles=77)
    same(ref.reset(busy), replace(m, pm=1, ps=2, pp=3, int_pin=0, cycles=77), 'RES')


# --- Effects ----------------------------------------------------------------

def test_effects():
    hold('SUB 5-3', one('41 03', acc=5), acc=2, cf=1)
    hold('SUB 3-5', one('41 05', acc=3, cf=1), acc=14, cf=0)
    hold('SBC 5-5, CF 0', one('0A', acc=5, cf=0, data=[5] * 160), acc=15, cf=0)
    hold('SBC 5-5, CF 1', one('0A', acc=5, cf=1, data=[5] * 160), acc=0, cf=1)
    hold('ADD clears CF', one('40 01', acc=1, cf=1), acc=2, cf=0)
    hold('DAA 12', one('36', acc=12), acc=2, cf=1)
    hold('RL 1001', one('01', acc=9), acc=3, cf=1)
    hold('RLC 1001, CF 0', one('03', acc=9), acc=2, cf=1)
    hold('RR 0001', one('00', acc=1), acc=8, cf=1)
    hold('RRC 0010, CF 1', one('02', acc=2, cf=1), acc=9, cf=0)
    hold('INC R4 of 15 keeps CF', one('18', r=[0, 0, 0, 0, 15], cf=1), r=[0] * 5, cf=1)
    hold('MOV R1R0,0F3H', one('53 0F'), r=[3, 15, 0, 0, 0])
    hold('MOV R3R2,0F3H', one('63 0F'), r=[0, 0, 3, 15, 0])
    hold('MOV TMRH,A', one('3D', acc=10, timer=0x35), timer=0xA5)
    hold('MOV A,TMRH', one('3B', timer=0x35), acc=3)
    hold('IN A,PS', one('33', pm=1, ps=2, pp=3), acc=2)
    # A write to 80h is lost, INC [R1R0] there too.
    m = machine(r=[0, 8, 0, 0, 0], acc=9)
    same(one('05', m=m), replace(m, pc=1, cycles=1, gap=1), 'write to 80h')
    same(one('0C', m=m), replace(m, pc=1, cycles=1, gap=2), 'INC at 80h')
    hold('SOUND 3', one('45 03', sound_mode=1), sound_channel=3, sound_mode=1)
    hold('SOUND OFF', one('4A', sound_channel=3, sound_mode=1), sound_channel=16, sound_mode=1)
    hold('SOUND LOOP', one('49'), sound_channel=16, sound_mode=1)
    # READ MR0A: ACC bits 4-7, R4 bits 0-3; high to M(R1,R0).
    m = machine(acc=2, r=[0, 0, 0, 0, 3])
    m = ref.step(mask((0, '4E'), (0x23, 'C7')), m)
    hold('READ MR0A', m, acc=7)
    same(m.data[0], 12, 'READ MR0A to memory')
    # READF MR0A: page 15, whatever the PC.
    m = ref.step(mask((0, '4F'), (0xF23, '5A')), machine(acc=2, r=[0, 0, 0, 0, 3]))
    same((m.acc, m.data[0]), (10, 5), 'READF MR0A')
    # READ at FFFh: the moved PC is 0, page 0.
    m = ref.step(mask((0xFFF, '4C'), (0xF00, 'EE'), (0x000, '75')), machine(pc=0xFFF))
    hold('READ R4A at FFFh', m, pc=0, acc=5, r=[0, 0, 0, 0, 7])


def test_branches():
    hold('JZ at FFEh', one('B7 FF', at=0xFFE), pc=0x7FF)    # moved PC 0
    hold('JZ at FFFh', one('B0 10', at=0xFFF), pc=0x010)    # second byte at 0
    hold('JZ at 7FFh', one('B0 10', at=0x7FF), pc=0x810)    # moved PC 801h
    hold('JZ not taken', one('B0 10', at=0x7FE, acc=1), pc=0x800)
    hold('JA2 on 0100', one('90 20', acc=4), pc=0x020)
    hold('JA2 on 1011', one('90 20', acc=11), pc=2)
    hold('JNC with CF 1', one('C8 20', cf=1), pc=2)
    hold('JNZ R4', one('D8 20', r=[0, 0, 0, 0, 1]), pc=0x020)
    hold('JMP crosses', one('EF FE'), pc=0xFFE)
    hold('JTMR taken', one('D0 20', tf=1), pc=0x020, tf=0)
    hold('JTMR not taken', one('D0 20'), pc=2, tf=0)
    # TF cleared by JTMR, then the timer passes 255 in the same step: 2 cycles at rate 2.
    m = machine(replace(OPTIONS, rate=2), tf=1, running=1, timer=254)
    hold('JTMR and overflow', one('D0 20', m=m), pc=0x020, tf=1, timer=0)


def test_subroutines():
    # CALL keeps the stack carry, RET keeps CF, RETI loads it.
    m = one('F1 23', at=0x10, cf=1, stack_carry=0)
    hold('CALL', m, pc=0x123, level=1, stack_address=0x12, stack_carry=0, cf=1)
    hold('RET', ref.step(mask((0x123, '2E')), m), pc=0x12, level=0, cf=1, stack_address=0x12)
    hold('RETI', ref.step(mask((0x123, '2F')), m), pc=0x12, level=0, cf=0)
    m = machine(replace(OPTIONS, rate=0), running=1, timer=5, level=2, stack_carry=1, cycles=3)
    for text, level, fault in (('F0 10', 2, 2), ('F0 10', 1, 2), ('2E', 0, 3), ('2F', 0, 3),
                               ('35', 0, 1), ('37 00', 1, 1), ('6F 10', 2, 1)):
        before = replace(m, level=level, pc=0x40)
        after = ref.step(mask((0x40, text)), before)
        same(after, replace(before, fault=fault), f'fault {fault} of {text} in level {level}')
        same(ref.run(mask(), after, 9), after, 'no step after a fault')
    # A pending interrupt goes before an unreadable instruction.
    m = ref.step(mask((0, '35')), machine(enable=1, tf=1))
    hold('interrupt before fault', m, fault=0, pc=4)


# --- Steps and events -------------------------------------------------------

def test_interrupts():
    # Both at once: the edge first, TF after RETI.
    program = mask((4, '2F'), (8, '2F'))
    m = machine(enable=1, held_edge=1, tf=1, pc=0x20, cf=1)
    m = ref.step(program, m)
    hold('edge first', m, pc=8, tf=1, held_edge=0, level=2, stack_address=0x20, stack_carry=1,
         enable=1, cycles=2)
    m = ref.step(program, m)
    hold('RETI', m, pc=0x20, level=0, cf=1, cycles=3)
    m = ref.step(program, m)
    hold('then TF', m, pc=4, tf=0, level=2, stack_address=0x20, cycles=5)
    for level in (1, 2):
        m = ref.step(mask(), machine(enable=1, held_edge=1, tf=1, level=level))
        hold(f'held in level {level}', m, pc=1, held_edge=1, tf=1, level=level)
    # TF taken, and set again by the two cycles of the taking step.
    m = ref.step(mask(), machine(replace(OPTIONS, rate=2), enable=1, tf=1, running=1, timer=254))
    hold('TF again', m, pc=4, tf=1, timer=0)
    # EI acts on the next step.
    m = ref.run(mask((0, '2C')), machine(tf=1), 2)
    hold('EI', m, pc=4, stack_address=1, level=2)


def test_timer():
    quick = replace(OPTIONS, rate=0)
    hold('TIMER ON moves at once', one('38', m=machine(quick)), timer=4, running=1)
    hold('TIMER OFF does not', one('39', m=machine(quick, running=1)), timer=0, running=0)
    hold('TIMER XXH then 8', one('47 FC', m=machine(quick, running=1)), timer=4, tf=1)
    hold('READ, 2 cycles', one('4C', m=machine(quick, running=1)), timer=8, cycles=2)
    # Rate 13: one count in 2,048 cycles, at T = 8,192.
    m = machine(running=1, cycles=2046)
    hold('rate 13 before', one('3E', m=m), timer=0, cycles=2047)
    hold('rate 13 at 2,048', one('47 00', m=m), timer=1, cycles=2048)
    # The cycle count goes on past its largest value to zero.
    m = machine(running=1, cycles=2 ** 32 - 1)
    hold('cycle count wraps', one('37 3E', m=m), cycles=1, timer=1, halted=1)
    external = machine(replace(OPTIONS, rate=255), running=1, timer=7)
    hold('external clock, step', one('3E', m=external), timer=7)
    hold('TMCLK 256', ref.event_tmclk(external, 256), timer=7, tf=1)
    hold('TMCLK 248', ref.event_tmclk(external, 248), timer=255, tf=0)
    hold('TMCLK 249', ref.event_tmclk(external, 249), timer=0, tf=1)
    hold('TMCLK 65,535', ref.event_tmclk(external, 65535), timer=6, tf=1)
    hold('TMCLK 0', ref.event_tmclk(replace(external, tf=1), 0), timer=7, tf=1)
    for still in (replace(external, running=0), machine(running=1)):
        for m in (still, replace(still, halted=1), replace(still, fault=2)):
            same(ref.event_tmclk(m, 300), m, 'TMCLK without effect')


def test_pulses_asleep():
    """Document 02, wish 1: 'when halted too, TF by the same rule. It still wakes nothing'."""
    asleep = machine(replace(OPTIONS, rate=255, wake_pm=1), running=1, timer=200, halted=1, enable=1, pc=0x22)
    same(ref.event_tmclk(asleep, 55), replace(asleep, timer=255), 'asleep, 55 pulses')
    passed = ref.event_tmclk(asleep, 56)
    same(passed, replace(asleep, timer=0, tf=1), 'asleep, 56 pulses')
    same(ref.event_tmclk(asleep, 65535), replace(asleep, timer=199, tf=1), 'asleep, 65,535 pulses')
    same(ref.event_tmclk(passed, 3), replace(passed, timer=3), 'asleep, TF stays set')
    same(ref.run(mask(), passed, 9), passed, 'TF by pulses does not wake')
    # A fault is no HALT, and pulses move that timer too.
    faulted = replace(asleep, halted=0, fault=3)
    same(ref.event_tmclk(faulted, 56), replace(faulted, timer=0, tf=1), 'faulted, 56 pulses')
    # Woken by INT or by a pin: the held edge first, then TF, in main again after RETI.
    program = mask((8, '2F'))
    for name, woken in (('INT', ref.event_int(passed, 0)), ('PM', ref.event_pins(passed, 14, 15, 15))):
        hold(name, woken, halted=0, held_edge=1, tf=1, pc=0x22)
        m = ref.step(program, woken)
        hold(f'{name}, the edge', m, pc=8, level=2, held_edge=0, tf=1, stack_address=0x22)
        m = ref.run(program, m, 2)
        hold(f'{name}, then TF', m, pc=4, level=2, held_edge=0, tf=0, stack_address=0x22)
        # With interrupts off both stay.
        m = ref.step(program, replace(woken, enable=0))
        hold(f'{name}, interrupts off', m, pc=0x23, level=0, held_edge=1, tf=1)


def test_wake():
    # HALT's cycles move the timer and can set TF; TF does not wake.
    m = machine(replace(OPTIONS, rate=2), running=1, timer=254, enable=1)
    m = one('37 3E', m=m)
    hold('HALT', m, halted=1, pc=2, cycles=2, timer=0, tf=1)
    same(ref.run(mask(), m, 5), m, 'halted stays')
    # An edge held earlier does not wake, and HALT runs in level 1 with it held.
    m = one('37 3E', level=1, enable=1, held_edge=1)
    hold('edge held earlier', m, halted=1, held_edge=1)
    same(ref.run(mask(), m, 5), m, 'an edge held earlier does not wake')
    wake = replace(OPTIONS, wake_ps=2)
    m = machine(wake, halted=1)
    hold('PS bit 1 falls', ref.event_pins(m, 15, 13, 15), halted=0, held_edge=1, ps=13)
    hold('PS bit 0 falls', ref.event_pins(m, 15, 14, 15), halted=1, held_edge=0, ps=14)
    hold('PM bit 1 falls', ref.event_pins(m, 13, 15, 15), halted=1, held_edge=0, pm=13)
    low = replace(m, ps=13)
    hold('PS bit 1 rises', ref.event_pins(low, 15, 15, 15), halted=1, held_edge=0, ps=15)
    hold('PS bit 1 stays low', ref.event_pins(low, 15, 13, 15), halted=1, held_edge=0)
    hold('PS falls, not halted', ref.event_pins(machine(wake), 15, 13, 15), held_edge=0, ps=13)
    hold('INT falls, halted', ref.event_int(m, 0), halted=0, held_edge=1, int_pin=0)
    hold('INT falls, running', ref.event_int(machine(), 0), held_edge=1, int_pin=0)
    hold('INT stays low', ref.event_int(machine(int_pin=0), 0), held_edge=0, int_pin=0)
    hold('INT rises', ref.event_int(replace(m, int_pin=0), 1), halted=1, held_edge=0, int_pin=1)
    # Woken with the enable flag on: the next step takes the edge.
    m = ref.event_int(machine(enable=1, halted=1, pc=2), 0)
    hold('woken', ref.step(mask(), m), pc=8, level=2, stack_address=2, held_edge=0)


# --- Marks ------------------------------------------------------------------

def test_marks():
    marks, verdict = ref.checker(mask((0, '2C E0 01')))     # EI; JMP 001h
    same(verdict, 'passed', 'EI')
    same(marks, bytes([5, 5, 0, 0]) + bytes([4]) * 4092, 'EI: level 2 from 4 round to 1')
    marks, verdict = ref.checker(mask((0, 'E0 00')))
    same((marks[0], sum(marks), verdict), (1, 1, 'passed'), 'JMP alone, no marks at 4 and 8')
    marks, verdict = ref.checker(mask((0, 'F0 10 E0 02'), (0x10, '2E')))
    same((marks[0], marks[2], marks[0x10], sum(marks), verdict), (1, 1, 2, 4, 'passed'),
         'CALL, RET')
    marks, verdict = ref.checker(mask((0, 'E0 10'), (0x10, '2E')))
    same((sum(marks), verdict), (2, (3, 0x10, 0)), 'RET in level 0')
    marks, verdict = ref.checker(mask((0, 'E7 FE'), (0x7FE, 'B0 10 2F'), (0x810, '35')))
    same((marks[0x810], marks[0x010], verdict), (1, 0, (3, 0x800, 0)), 'branch at 7FEh')


def random_mask(rng):
    """Main program at 010h, subroutine at 100h, timer and edge routines at 200h and 300h."""
    anywhere = ['2C', '2D', '31', '36', '38', '39', '3A', '4C', '4F', '05', '08', '0B', '53 0F',
                '47 FD', '45 03', '30', '2B', '03', '33', '37 3E']

    def body(also, end):
        parts = [rng.choice(anywhere + also) for _ in range(rng.randrange(20))]
        return ' '.join(parts + [end])

    return mask((0, 'E0 10'), (4, 'E2 00'), (8, 'E3 00'),
                (0x010, body(['F1 00', 'F1 00', 'B0 10', 'D0 10', 'A0 10'], 'E0 10')),
                (0x100, body([], '2E')), (0x200, body([], '2F')), (0x300, body([], '2E')))


def test_ways():
    calls = mask((0, 'F0 10 E0 02'), (0x10, '31 F1 23'))        # CALL 010h; at 010h INC A, CALL
    chain = [(0, 0), (0x10, 1), (0x11, 1)]
    same(ref.way(calls, 9), chain, 'a list that just fits')
    same(ref.way(calls, 8), Refused(11), 'one byte short')
    same(ref.way(mask(), 0), Refused(10), '10 before 11')
    same(ref.way(bytes(4095), 0), Refused(1), '1 before 10 and 11')
    same(ref.listed([(0x123, 0), (0xFFF, 2)]), bytes.fromhex('23 01 00 FF 0F 02'), 'three bytes a pair')
    # A branch over 254 NOPs, and 256 pairs without it.
    branch = mask((0, 'D9 00'), (0x100, '2E'))
    same(ref.way(branch, 36864), [(0, 0), (0x100, 0)], 'the shorter way')
    long = [(0, 0)] + [(at, 0) for at in range(2, 0x101)]
    same(ref.wrong_way(branch, [(0, 0), (0x100, 0)], (0x100, 0), 2), None, 'a shortest way')
    same(ref.wrong_way(branch, long, (0x100, 0), 2), 'it has 256 pairs, a shortest has 2', 'a longer way')
    same(ref.wrong_way(branch, [(0, 0)], (0x100, 0), 2), 'it does not end at (256, 0)', 'the last pair missing')
    same(ref.wrong_way(branch, [(0x100, 0)], (0x100, 0), 2), 'it does not start at address 0, level 0', 'the first pair missing')
    same(ref.wrong_way(branch, [(0, 0), (0xFF, 0), (0x100, 0)], (0x100, 0), 2), '(255, 0) is no successor of (0, 0)', 'a step that is none')
    # Both ways round a diamond have three pairs, and either will do.
    diamond = mask((0, 'C0 10 E0 20'), (0x10, 'E0 40'), (0x20, 'E0 40'), (0x40, '2F'))
    same(ref.counts(diamond)[(0x40, 0)], 3, 'over 010h')
    same(len(ref.way(diamond, 36864)), 3, 'a way of three pairs')
    through = mask((0xFFD, 'F0 00'))        # every address in level 0, then in level 1
    same(len(ref.way(through, 36864)), 8188, 'the longest here')
    same(ref.checkmask(calls)[1:], ['000 main       F0 10 CALL 010H', '010 subroutine 31    INC A', '011 subroutine F1 23 CALL 123H'], 'its lines')


# --- How long an edge is held -----------------------------------------------

def routines(text, at=0x10):
    """EI and CALL of an address in main, then the text there; both vectors return at once."""
    return mask((0, 'E0 80'), (4, '2F'), (8, '2E'), (0x80, f'2C F{at:03X} E0 81'), (at, text))


def test_bounds():
    """Document 02, wish 5, by hand: cycles are 1, 2 for two bytes and for READ."""
    for text, want, what in (
            ('2E', 1, 'a return at once'), ('2F', 1, 'RETI too'), ('3E 4C 40 01 2E', 6, 'NOP, READ, ADD A,1, RET'),
            ('C0 15 4C 4C 2E 3E 3E 3E 2E', 7, 'two READs are more than three NOPs'), ('C0 15 3E 4C 2E 3E 3E 3E 2E', 6, 'a NOP and one are not'),
            ('C0 14 3E 2E 2C 2D 2F', 5, 'EI as any other'), ('E0 10', 'no bound', 'a jump to itself'), ('C0 10 2E', 'no bound', 'a branch to itself'),
            ('C0 14 3E 2E 3E E0 14', 'no bound', 'a loop behind a branch'), ('3E C0 10 2E', 'no bound', 'a loop through its first pair'),
            ('37 3E 2E', 'no bound', 'HALT'), ('C0 13 2E 37 3E 2E', 'no bound', 'HALT behind a branch'), ('C0 13 2E 35', 'failed', 'fault 1')):
        program = routines(text)
        same(ref.bound(program, 0x10, 1), Refused(15) if want == 'failed' else want, what)
    # 'not reached if it is unmarked or in level 0', and the refusals in their order.
    program = routines('3E 2E')
    for address, level, want in ((0x10, 0, 'not reached'), (0x80, 0, 'not reached'), (0x10, 2, 'not reached'), (0x80, 1, 'not reached'),
                                 (0x12, 1, 'not reached'), (0xFFF, 2, 'not reached'), (0x10, 1, 2), (0x11, 1, 1), (4, 2, 1), (8, 2, 1),
                                 (4096, 1, Refused(5)), (0x10, 3, Refused(5)), (65535, 255, Refused(5))):
        same(ref.bound(program, address, level), want, f'{address:03X} in level {level}')
    for address, level in ((0x10, 1), (0, 0), (0xFFF, 2)):
        same(ref.bound(mask(fill=0x35), address, level), Refused(15), '15')
        same(ref.bound(program[1:], address, level), Refused(1), '1')
    same(ref.bound(mask(fill=0x35), 4096, 0), Refused(5), '5 before 15')
    same(ref.bound(mask(fill=0x35), 0, 3), Refused(5), '5 before 15, by the level')
    same(ref.bound(bytes(4095), 4096, 3), Refused(1), '1 before 5')
    # EI goes on to the next address, though that is a vector; bit 11; the byte after FFFh.
    same(ref.bound(mask((0, 'E0 80'), (4, '3E 3E 3E 2C 4C 2F'), (0x80, '2C E0 81')), 4, 2), 7, 'EI at 007h')
    same(ref.bound(mask((0, 'E0 80'), (4, 'E7 FE'), (8, '2F'), (0x80, '2C E0 81'), (0x7FE, 'C0 10 2F'), (0x810, '4C 4C 2F')), 4, 2), 9, 'JC at 7FEh')
    over = mask((0, 'E0 2E'), (4, '2F'), (8, 'EF FF'), (0x2E, '2C E0 2F'), (0xFFF, 'C0'), (0x0E0, '4C 2F'))
    same(ref.bound(over, 8, 2), 2 + 2 + 3, 'JC at FFFh, its second byte at 0, RET at 1')
    same(ref.checkmask(over), ['passed', 'bound at 004 level 2: 1', 'bound at 008 level 2: 7', 'longest wait: 7 at 008 level 2'], 'its lines')
    same(ref.checkmask(mask()), ['passed', 'bound at 004 level 2: not reached', 'bound at 008 level 2: not reached', 'longest wait: not reached'], 'main alone')
    same(ref.checkmask(routines('E0 10')), ['passed', 'bound at 004 level 2: 1', 'bound at 008 level 2: 1', 'bound at 010 level 1: no bound',
                                            'longest wait: no bound at 010 level 1'], 'no bound is the longest')
    # One address in both levels, called twice: one line for it, and the lower level is the first pair.
    twice = mask((0, 'E0 80'), (4, 'E0 10'), (8, '2E'), (0x10, '4C 2E'), (0x80, '2C F0 10 F0 10 F0 08 E0 81'))
    same(ref.checkmask(twice), ['passed', 'bound at 004 level 2: 5', 'bound at 008 level 2: 1', 'bound at 008 level 1: 1', 'bound at 010 level 1: 3',
                                'longest wait: 5 at 004 level 2'], 'shared code')
    tie = mask((0, 'E0 80'), (4, '2F'), (8, '4C 2E'), (0x80, '2C F0 08 F0 10 E0 81'), (0x10, '4C 2E'))
    same(ref.checkmask(tie)[-1], 'longest wait: 3 at 008 level 1', 'the first of three pairs')
    # 60 branches one after the other, 2^60 chains.
    deep = ' '.join(f'C2 {at + 3:02X} 4C' for at in range(0x00, 0xB4, 3)) + ' 2F'
    same(ref.bound(mask((0, 'E1 00'), (4, 'E2 00'), (8, '2F'), (0x100, '2C E1 01'), (0x200, deep)), 4, 2), 2 + 60 * 4 + 1, '60 branches')


def chain_totals(program, at, chain=()):
    """The cycles of each chain from an address above main to a return; None where it meets a HALT or an address again."""
    first, second = program[at], program[(at + 1) % 4096]
    length, cycles = isa.LENGTH_CYCLES[first]
    moved, target = (at + length) % 4096, first % 16 * 256 + second
    if at in chain or first == 0x37:
        yield None
    elif first in (0x2E, 0x2F):
        yield cycles
    else:
        jumps = [target] if first >= 0xE0 else [moved // 0x800 * 0x800 + target % 0x800, moved] if first >= 0x80 else [moved]
        for after in jumps:
            for total in chain_totals(program, after, chain + (at,)):
                yield None if total is None else cycles + total


def small_routines(rng):
    """Few codes from 4 on, called and as interrupts; main calls three of them."""
    codes = ['3E', '3E', '4C', '2C', '40 01', '2E', '2F', 'E0', 'C0', 'B0', 'C0'] + ['37 3E'] * (rng.random() < 0.3)
    text = ''
    while len(text.split()) < 14:
        code = rng.choice(codes)
        ahead = 4 + len(text.split()) + 2
        aim = rng.randrange(4, 18) if rng.random() < 0.2 else rng.randrange(ahead, max(ahead + 1, 18))
        text += f' {code}' + (f' {aim:02X}' if code in ('E0', 'C0', 'B0') else '')
    calls = ' '.join(f'F0 {rng.randrange(4, 18):02X}' for _ in range(3))
    return mask((0, 'E0 80'), (4, text), (0x80, f'2C {calls} E0 81'), fill=0x2E)


def test_bounds_by_chains():
    """All chains written out, on masks of few codes."""
    rng, met = random.Random(1133), {'no bound': 0, 'bounded': 0, 'not reached': 0, 'failed': 0}
    for _ in range(400):
        program = small_routines(rng)
        marks, verdict = ref.checker(program)
        if verdict != 'passed':
            met['failed'] += 1
            continue
        answers = ref.bounds(program, marks)
        for address in range(0x90):
            for level in range(3):
                got = answers.get((address, level), 'not reached')
                if not (level and marks[address] >> level & 1):
                    want = 'not reached'
                else:
                    totals = list(chain_totals(program, address))
                    want = 'no bound' if None in totals else max(totals)
                assert got == want, (program[:0x90].hex(), address, level, got, want)
                met[want if isinstance(want, str) else 'bounded'] += 1
    same(min(met['no bound'], met['bounded']) > 1000, True, f'answers met: {met}')


def test_held():
    """'once its steps have spent that many cycles, it has come to level 0', whatever the machine holds and happens
    between its steps; and some run spends just that many."""
    rng, exact, runs = random.Random(1134), 0, 0
    for _ in range(150):
        program = small_routines(rng)
        marks, verdict = ref.checker(program)
        if verdict != 'passed':
            continue
        for (address, level), most in ref.bounds(program, marks).items():
            if most == 'no bound':
                continue
            m = machine(replace(OPTIONS, rate=rng.choice(ref.RATES)), pc=address, level=level, acc=rng.randrange(16), cf=rng.randrange(2),
                        tf=rng.randrange(2), enable=rng.randrange(2), held_edge=rng.randrange(2), running=rng.randrange(2), timer=rng.randrange(256),
                        stack_address=rng.randrange(4096), stack_carry=rng.randrange(2), cycles=2 ** 32 - rng.randrange(1, 9))
            spent = 0
            while m.level:
                if rng.random() < 0.2:
                    m = rng.choice([ref.event_int(m, rng.randrange(2)), ref.event_tmclk(m, rng.randrange(300)),
                                    ref.event_pins(m, *(rng.randrange(16) for _ in range(3)))])
                after = ref.step(program, m)
                spent += (after.cycles - m.cycles) % 2 ** 32
                m = after
                assert spent <= most and not m.fault and not m.halted, (program[:0x90].hex(), address, level)
            exact += spent == most
            runs += 1
    same(exact > runs // 2 > 200, True, f'{exact} of {runs} runs spend their bound')


# --- Strays into the gap ----------------------------------------------------

# Document 001, by hand: codes that access M(R1,R0) or M(R3,R2), and how often.
R1R0_ONCE = '04 05 08 09 0A 0B 1A 1B 1C 4C 4D 4E 4F'.split()
R1R0_TWICE = '0C 0D 1D 1E 1F'.split()
R3R2_ONCE = '06 07'.split()
R3R2_TWICE = '0E 0F'.split()

EDGES = {0x00: 0, 0x7F: 0, 0x80: 1, 0xDF: 1, 0xE0: 0, 0xFF: 0}


def at_pairs(r1r0, r3r2):
    return [r1r0 % 16, r1r0 // 16, r3r2 % 16, r3r2 // 16, 0]


def test_gap():
    # Each code by its pair at the edges, the other pair on the other side.
    for codes, times, by_r1r0 in ((R1R0_ONCE, 1, True), (R1R0_TWICE, 2, True),
                                  (R3R2_ONCE, 1, False), (R3R2_TWICE, 2, False)):
        for code in codes:
            for address, inside in EDGES.items():
                other = 0x10 if inside else 0x90
                r = at_pairs(address, other) if by_r1r0 else at_pairs(other, address)
                hold(f'{code} at {address:02X}', one(code, r=r, gap=100), gap=100 + times * inside, fault=0)
    # No other code counts: all that can be read, both pairs in the gap.
    counting = R1R0_ONCE + R1R0_TWICE + R3R2_ONCE + R3R2_TWICE
    for first in range(256):
        if isa.read(first, 0x3E if first == 0x37 else 0) and f'{first:02X}' not in counting:
            m = one(f'{first:02X} {"3E" if first == 0x37 else "00"}', r=at_pairs(0x80, 0xDF), level=1 if first in (0x2E, 0x2F) else 0)
            hold(f'{first:02X} does not count', m, gap=0, fault=0)
    # It stops at 65,535.
    for gap, once, twice in ((65532, 65533, 65534), (65533, 65534, 65535), (65534, 65535, 65535), (65535, 65535, 65535)):
        r = at_pairs(0xA5, 0)
        hold(f'MOV at {gap}', one('04', r=r, gap=gap), gap=once)
        hold(f'INC at {gap}', one('0C', r=r, gap=gap), gap=twice)


def test_gap_events():
    here = dict(r=at_pairs(0x80, 0xDF), gap=7)
    # A fault counts nothing, nor does a step after it.
    for text, level, fault in (('35', 0, 1), ('40 10', 0, 1), ('F0 00', 1, 2), ('F0 00', 2, 2), ('2E', 0, 3), ('2F', 0, 3)):
        m = one(text, level=level, **here)
        hold(f'fault {fault}', m, fault=fault, gap=7)
        same(ref.run(mask((0, '0C'), fill=0x0C), m, 9), m, 'Run when faulted')
    # The step that takes an interrupt counts nothing; the handler counts.
    for vector, flags in ((8, dict(held_edge=1)), (4, dict(tf=1))):
        m = ref.step(mask(fill=0x0C), machine(enable=1, **flags, **here))
        hold('interrupt taken', m, pc=vector, level=2, gap=7)
        hold('in its handler', ref.step(mask(fill=0x0C), m), gap=9)
    # Refused: nothing happens, so nothing counts. The query looks at the whole machine.
    m = machine(**here)
    same(ref.run(bytes(4095), m, 5), Refused(1), 'Run with a short mask')
    same(ref.run(mask(fill=0x0C), replace(m, pc=4096), 5), Refused(5), 'Run out of range')
    same((m.gap, ref.gap_count(m)), (7, 7), 'the count')
    same(ref.gap_count(replace(m, acc=16)), Refused(5), 'the count of a machine out of range')
    for gap in (0, 1, 65534, 65535):
        same(ref.gap_count(replace(m, gap=gap)), gap, f'count {gap}')
        hold('RES keeps it', ref.event_res(replace(m, gap=gap)), gap=gap)
        hold('pins keep it', ref.event_pins(replace(m, gap=gap), 0, 0, 0), gap=gap)
        hold('INT keeps it', ref.event_int(replace(m, gap=gap), 0), gap=gap)
        hold('TMCLK keeps it', ref.event_tmclk(replace(m, gap=gap), 300), gap=gap)
        hold('power-on clears it', ref.event_power_on(replace(m, gap=gap), OPTIONS, [8] * 166), gap=0)
    # A report has no count in it.
    same(ref.report(m), ref.report(replace(m, gap=65535)), 'report')
    # Two for INC, none for JMP: 32,768 turns reach the end, in one Run or in two.
    loop, start = mask((0, '0C E0 00')), machine(r=at_pairs(0x80, 0))
    hold('32,767 turns', ref.run(loop, start, 65534), gap=65534)
    m = ref.run(loop, start, 65535)
    hold('a turn more', m, gap=65535)
    hold('and many more', ref.run(loop, m, 1000), gap=65535)


def test_accesses():
    # What the effect reads and writes, written down as it goes, is what the mnemonic tells.
    rng, met = random.Random(6), set()
    read, write = ref.data_read, ref._data_write
    table = bytes(rng.randrange(256) for _ in range(4096))
    for first in list(range(256)) * 16:
        program = bytes([first, 0x3E if first == 0x37 else rng.randrange(16)]) + table[2:]
        m = machine(acc=rng.randrange(16), r=[rng.randrange(16) for _ in range(5)], level=rng.randrange(3))
        i = ref.fetch(program, 0)
        if ref.fault_of(i, m.level):
            continue
        log = ([], [])
        ref.data_read = lambda m, a: (log[0].append(a), read(m, a))[1]
        ref._data_write = lambda m, a, x: (log[1].append(a), write(m, a, x))[1]
        after = ref.step(program, m)
        ref.data_read, ref._data_write = read, write
        assert log == ref.accesses(m, i), i
        assert after.gap == sum(0x80 <= a < 0xE0 for a in log[0] + log[1]), i
        met.add(i.code.mnemonic)
    same(len(met), len(isa.TABLE), 'lines of the summary met')


# --- Lists of events --------------------------------------------------------

def test_event_lists():
    # Property 3: fault 0, and the pair of PC and level is one that the checker marked.
    rng = random.Random(1130)
    levels = [0, 0, 0]
    for _ in range(40):
        program = random_mask(rng)
        marks, verdict = ref.checker(program)
        same(verdict, 'passed', 'random mask')
        m = None
        for k in range(60):
            kind = 1 if k == 0 else rng.choice((1,) + 10 * (2,) + (3, 3, 4, 4, 5, 5, 6))
            payload = bytes(rng.randrange(16) for _ in range(ref.PAYLOAD[kind]))
            if kind == 1:
                payload = bytes([rng.choice(ref.RATES), rng.choice((3, 4))]) + payload[2:]
            elif kind == 2:
                payload = bytes([rng.randrange(100), 0])
            elif kind == 4:
                payload = bytes([payload[0] % 2])
            m = ref.apply_record(program, m, kind, payload)
            assert ref.machine_ok(m) and m.fault == 0 and marks[m.pc] >> m.level & 1, m
            levels[m.level] += 1
    same(min(levels) > 20, True, 'all levels met')


for name, test in list(globals().items()):
    if name.startswith('test_'):
        test()
print(f'{checks} checks passed')
