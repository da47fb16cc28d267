"""Plain checks of the reference assembler: document 02's sentences, and cases of our own where
they leave room. Prints 'N checks passed'."""

import assembler
import isa_table as isa
from assembler import (AGAIN, BAD_BRANCH, BAD_ORG, BAD_VALUE, FIXED, FORMS, MISSING, NOT_ABOVE,
                       PAST_END, TOO_LONG, TWICE, UNREADABLE)

checks = 0


def same(got, want, what):
    global checks
    assert got == want, ', '.join(f'{name} {value!r:.200}' for name, value in (('of', what), ('got', got), ('want', want)))
    checks += 1


def text_of(lines):
    return '\n'.join(lines).encode('latin-1')


def accepted(*lines, **bytes_at):
    """The text gives these bytes, by addresses as at_010='E0 10', and 3E elsewhere."""
    mask = bytearray([0x3E] * 4096)
    for name, code in bytes_at.items():
        at, code = int(name[3:], 16), bytes.fromhex(code)
        mask[at:at + len(code)] = code
    same(assembler.examine(text_of(lines)), (None, 0, bytes(mask)), lines)


def refused(why, line, *lines):
    same(assembler.examine(text_of(lines)), (why, line, None), lines)


def reads(operand, value):
    """The operand has this value, beside some that any value needs."""
    accepted(f'JMP {operand}', at_000=f'{0xE000 + value:04X}')


def unreadable(*lines):
    """Each of them cannot be read, and the lines around it can."""
    for line in lines:
        refused(UNREADABLE, 2, 'X:NOP', line, 'NOP')


# --- Lines and words --------------------------------------------------------

def test_lines():
    accepted()
    accepted('', '', '   ', '')
    accepted('INC A', at_000='31')
    accepted('INC A', '', at_000='31')          # the last LF
    accepted('', ' ', 'INC A', '', 'DEC A', at_000='31 3F')
    accepted('  ADD  A  ,  [  R1R0  ]  ', at_000='09')
    accepted('ADD A,[R1R0]', at_000='09')
    accepted('L:JMP(L)', at_000='E0 00')
    accepted(' L : JMP ( L + 1 ) ', at_000='E0 01')
    accepted('X: EI', at_000='2C')
    unreadable('L:', 'L', 'L: M: NOP', ': NOP', 'NOP:', 'L NOP', 'L:: NOP', 'NOP L:', '(L): NOP')
    unreadable('NOP NOP', 'NOPNOP', 'N OP', 'INCA', 'INC  R 4', 'JMP4', 'ADD A [R1R0]', 'ADD A,,[R1R0]',
               'ADD A,R1R0', 'ADD [A],R1R0', 'ADD A,[R3R2]', 'AND A,[R3R2]', 'ADD [R1R0],A', 'INC R5',
               'INC', 'INC 4', 'MOV R5,A', 'MOV R4,R3', 'MOV A,PM', 'IN A,PA', 'IN PM', 'OUT PM,A', 'JA 5', 'JA4 5',
               'JNZ R2,5', 'JZ 5', 'JC A,5', 'JMP', 'JMP A', 'CALL', 'RET 1', 'TIMER', 'TIMER A', 'TIMER LOOP',
               'SOUND', 'SOUND ON', 'SOUND R4', 'SOUND 1,2', 'READ A', 'READ R4', 'READF 5', 'HALT 1', 'ORG', 'ORG A',
               'MOV R1R0,A', 'MOV R2,5', 'MOV R1R0,[R3R2]', 'MOV [R1R0],5', 'MOVE A,5', 'DB 5', 'LD A,5', 'ORG 1,2',
               'ADD A,[R1R0]]', 'ADD A,[[R1R0]', 'ADD A,([R1R0])', 'ADD (A),5', '(NOP)', 'JMP 5,', 'JMP 5:')
    for byte in range(256):                     # a lone byte, and one at the end of a line
        if byte not in b'\n ':
            unreadable(chr(byte), 'NOP' + chr(byte))
    unreadable('nop', 'Nop', '\tNOP', 'NOP\t', 'NOP\r', 'NOP ;', 'NOP \0', 'JMP 1*1', 'JMP $', "MOV A,'A'", 'JMP 0x10')
    # MOV A,R5 has a label where MOV A,R4 has a register.
    accepted('MOV A,R5', 'R5: NOP', at_000='71 3E')
    refused(MISSING, 1, 'MOV A,R5')


def test_fixed_words():
    same(len(FORMS), 97, 'lines with each register, port and bit, and ORG')
    for word in ('MOV', 'A', 'R4', 'ORG'):      # document 02 names these
        assert word in FIXED
    for word in sorted(FIXED):
        unreadable(f'{word}: NOP', f'JMP {word}', f'ORG {word}', f'JMP 1+({word})')
    for word in ('R5', 'JA', 'JA4', 'R1R1', 'R2R3', 'R4B', 'MOVE', 'AA', 'B', 'H', 'FH', 'ORGA', 'RETII', 'OFFF', 'PB',
                 'TMR', 'MR0', 'ADDR', 'XH', 'XXH', 'N', 'RN', 'X0', 'A0', 'Z9Z', 'L' * 30000):
        assert word not in FIXED
        accepted('NOP', f'{word}: JMP {word}', at_001='E0 01')


def test_numbers():
    for word, value in (('0', 0), ('7', 7), ('10', 10), ('10H', 16), ('0AH', 10), ('0FFFH', 4095), ('4095', 4095),
                        ('0H', 0), ('00000000000000000000000000000005', 5), ('0' * 60000 + '1FH', 31), ('1CH', 28)):
        reads(word, value)
    for word in ('65535', '0FFFFH', '00065535', '000FFFFH'):
        refused(BAD_VALUE, 1, f'JMP {word}')
        reads(f'{word}-61440', 4095)
    unreadable('JMP 65536', 'JMP 10000H', 'JMP 99999999999999999999', 'JMP 5' + '0' * 5000, 'JMP 0FFFFFFFFFFFFFFFFFH', 'JMP 12B',
               'JMP 0G', 'JMP 5HH', 'JMP 0H0', 'JMP 0GH', 'JMP 1F', '5: NOP', '5H: NOP', '5L: NOP', 'JMP 5 5', 'JMP 5H H', 'JMP 1O')
    refused(MISSING, 1, 'JMP FFFH')             # it starts with a letter: a label


# --- Operands ---------------------------------------------------------------

def nested(depth, inside='5'):
    return '(' * depth + inside + ')' * depth


def test_operands():
    for operand, value in (('1+2', 3), ('9-2-3', 4), ('9-(2-3)', 10), ('9-(2+3)+1', 5), ('1-2+3', 2), ('0-5+6', 1),
                           ('(1)', 1), ('9-(1+2-3+4)', 5), ('((1)+(2))-(3)+((4))', 4), ('10-(9-(8-(7-(6-5))))', 3), ('5+5-5+5', 10),
                           ('65535+65535-65535-65535', 0), ('0-65535-65535+(65535+65535)', 0), ('1-(2)-(3-(4+5))', 5),
                           ('-'.join(['65000'] + 65 * ['999']), 65), ('+'.join(4095 * ['1']), 4095)):
        reads(operand, value)
    for operand in ('1-2', '4096', '4095+1', '0-(0-4096)', '0-65535'):
        refused(BAD_VALUE, 1, f'JMP {operand}')
    for depth in range(17):
        reads(nested(depth), 5)
    reads(nested(16, '1+1') + '-' + nested(16, '1'), 1)
    reads('7-' + '(7-' * 15 + '(7)' + ')' * 15, 7)
    for depth in (17, 18, 100, 30000):
        unreadable('JMP ' + nested(depth))
    unreadable('JMP 1+' + nested(17) + '-1', 'JMP 7-' + '(7-' * 16 + '(7)' + ')' * 16, 'JMP ()', 'JMP 1+()', 'JMP (())', 'JMP (1', 'JMP 1)',
               'JMP (1))', 'JMP ((1)', 'JMP )1(', 'JMP +1', 'JMP -1', 'JMP 1+', 'JMP 1-', 'JMP 1++1', 'JMP 1+-1', 'JMP (-1)', 'JMP (1+)',
               'JMP 1(2)', 'JMP (1)2', 'JMP (1)(2)', 'JMP [1]', 'JMP 1+,', 'JMP 1,2', 'JMP X X', 'JMP X+', 'JMP :', 'JMP (X', 'MOV A,-1',
               'MOV A,(5', 'MOV (A,5)', 'ORG -1', 'ORG 1+')


def test_fields():
    accepted('MOV A,15', 'ADD A,15', 'MOV R4,0FH', 'SOUND 15', at_000='7F 40 0F 46 0F 45 0F')
    accepted('MOV R1R0,0F3H', 'MOV R3R2,255', 'TIMER 0C0H', at_000='53 0F 6F 0F 47 C0')
    for line in ('MOV A,', 'ADD A,', 'SUB A,', 'AND A,', 'OR A,', 'XOR A,', 'MOV R4,', 'SOUND '):
        refused(BAD_VALUE, 2, 'NOP', line + '16')
        refused(BAD_VALUE, 2, 'NOP', line + '0-1')
    for line in ('MOV R1R0,', 'MOV R3R2,', 'TIMER '):
        refused(BAD_VALUE, 2, 'NOP', line + '256')
        refused(BAD_VALUE, 2, 'NOP', line + '0-1')
    for line in ('JMP ', 'CALL ', 'JC ', 'JA3 ', 'JNZ R4,'):
        refused(BAD_VALUE, 2, 'NOP', line + '4096')
        refused(BAD_VALUE, 2, 'NOP', line + '0-1')


def test_branches():
    # JZ A at these addresses, and a target that fits: document 01's table has 7FDh and 7FEh.
    for at, fits, not_fits in ((0x000, 0x7FF, 0x800), (0x7FD, 0x010, 0x810), (0x7FE, 0x810, 0x010), (0x7FF, 0x800, 0x7FF),
                               (0xFFD, 0xFFF, 0x000), (0xFFE, 0x7FF, 0x800)):
        code = f'{0xB000 + fits % 0x800:04X}'
        accepted(f'ORG {at}', f'JZ A,{fits}', **{f'at_{at:03X}': code})
        for mnemonic in ('JZ A,', 'JA0 ', 'JNZ R4,', 'JTMR '):
            refused(BAD_BRANCH, 2, f'ORG {at}', f'{mnemonic}{not_fits}')
        accepted(f'ORG {at}', f'JMP {not_fits}', **{f'at_{at:03X}': f'{0xE000 + not_fits:04X}'})
    accepted('ORG 800H', 'L: JNC L', 'CALL L', at_800='C8 00 F8 00')


# --- Addresses and labels ---------------------------------------------------

def test_addresses():
    accepted('ORG 10H', 'INC A', 'ORG 8', 'DEC A', at_010='31', at_008='3F')
    accepted('A1: ORG 5', 'JMP A1', 'A2: ORG A1+(A1-2)', 'JMP A2', at_005='E0 05', at_008='E0 08')
    accepted('JMP B', 'ORG 5', 'B: INC A', at_000='E0 05', at_005='31')
    accepted('L: JMP L+2', 'M: JMP L', at_000='E0 02 E0 00')
    accepted('ORG 4095', 'INC A', 'X: ORG 0', 'JMP X', at_FFF='31', at_000='E0 00')
    accepted('ORG 4094', 'JMP 0', at_FFE='E0 00')
    accepted('ORG 1-1', 'INC A', 'ORG 0-5+6', 'DEC A', at_000='31 3F')
    accepted('E1: ORG 0E0H', 'ORG 0', 'MOV R1R0,E1', at_000='50 0E')     # a name for a data address
    accepted('ORG 5', 'ORG 5', 'INC A', at_005='31')
    for value in ('4096', '0-1', '65535', '1-2', '0-65535-65535'):
        refused(BAD_ORG, 2, 'NOP', f'ORG {value}')
    refused(PAST_END, 2, 'ORG 4095', 'JMP 0')
    refused(PAST_END, 2, 'ORG 4095', 'HALT')
    refused(PAST_END, 3, 'ORG 4095', 'NOP', 'NOP')
    refused(PAST_END, 3, 'ORG 4095', 'NOP', 'L: JMP L')
    refused(TWICE, 3, 'NOP', 'ORG 0', 'NOP')
    refused(TWICE, 3, 'JMP 0', 'ORG 1', 'NOP')
    refused(TWICE, 4, 'ORG 1', 'NOP', 'ORG 0', 'JMP 0')
    refused(TWICE, 5, 'NOP', '', '', 'ORG 0', 'NOP')                    # 3Eh written is written


def test_labels():
    refused(MISSING, 1, 'JMP X')
    refused(MISSING, 2, 'X: NOP', 'JMP X+Y')
    refused(MISSING, 1, 'JMP X-X')
    refused(MISSING, 2, 'LONGLABEL: NOP', 'JMP LONGLABE')
    refused(MISSING, 2, 'LONGLABEL: NOP', 'JMP LONGLABELS')
    refused(MISSING, 1, 'ORG X')
    refused(NOT_ABOVE, 1, 'ORG X', 'X: NOP')
    refused(NOT_ABOVE, 2, 'NOP', 'X: ORG X')
    refused(NOT_ABOVE, 1, 'ORG 1+(X-X)', 'X: NOP')
    refused(AGAIN, 3, 'X: NOP', 'Y: NOP', 'X: NOP')
    refused(AGAIN, 2, 'X: NOP', 'X: ORG 5')
    refused(AGAIN, 2, 'X: ORG 0', 'X: ORG X')
    refused(AGAIN, 2, 'X: ORG 0', 'X: ORG 0')                           # though the value is the same


# --- Which answer -----------------------------------------------------------

def test_order():
    value, branch, org, twice, label, again = ('MOV A,16', 'JC 800H', 'ORG 4096', 'ORG 0', 'JMP Y', 'X: NOP')
    refused(UNREADABLE, 9, value, 'NOP', 'NOP', 'NOP', label, 'X: NOP', again, org, 'NOP NOP')
    refused(MISSING, 5, value, 'NOP', org, 'NOP', label, 'X: NOP', again)
    refused(AGAIN, 4, value, org, 'X: NOP', again, label)
    refused(BAD_ORG, 3, value, branch, org, twice, 'NOP')
    refused(TWICE, 4, value, branch, twice, 'NOP', org)
    refused(BAD_VALUE, 1, value, branch)
    refused(BAD_BRANCH, 1, branch, value)
    refused(UNREADABLE, 2, 'NOP', '?', '?')
    # A value outside its field on a line that also overlaps, and an unreadable line that names no label.
    refused(TWICE, 3, value, 'ORG 0', 'ADD A,16')
    refused(UNREADABLE, 1, 'JMP Y Z', 'JMP Y')


def test_length():
    same(assembler.assemble(b' ' * 65535)[0], 0, 'a text of 65,535 bytes')
    same(assembler.examine(b' ' * 65536), (TOO_LONG, 1, None), 'a text of 65,536 bytes')
    same(assembler.examine(b'\n' * 65536), (TOO_LONG, 1, None), 'blank lines, one byte too many')
    same(assembler.examine(b'\n' * 65000 + b'?' + b'\n' * 1000), (TOO_LONG, 1, None), 'line 1, not the unreadable one')
    same(assembler.assemble(b'\n' * 65534 + b'?'), (12, 65535, None), 'the last line of all')
    same(assembler.assemble(b'\n' * 65530 + b'JMP X'), (14, 65531, None), 'a label missing there')
    same(assembler.printed(0, 0), '', 'accepted')
    same(assembler.printed(14, 65531), 'refused 14 at line 65531\n', 'refused')


# --- Every instruction ------------------------------------------------------

def every_instruction():
    """Each that can be read; of one-byte codes one."""
    for first in range(256):
        length = isa.LENGTH_CYCLES[first][0]
        for second in range(256 if length == 2 else 1):
            instruction = isa.read(first, second)
            if instruction:
                yield instruction


def test_every_instruction():
    """The text of each, one after the other to the end of a mask, gives its bytes. A branch is shown
    with its whole target, so the second round, from 800h on, has the upper half."""
    count = 0
    for start in (0x000, 0x800):
        lines, code, at = [f'ORG {start}'], b'', start
        for instruction in every_instruction():
            size = instruction.code.length
            if at + size > 0x7FC + start:       # the moved address stays in one half
                same(assembler.assemble(text_of(lines))[2], (b'\x3E' * start + code).ljust(4096, b'\x3E'), f'to {lines[-1]}')
                lines, code, at = [f'ORG {start}'], b'', start
            lines.append(isa.text(isa.placed(instruction, at + size)))
            code += isa.write(instruction)
            at += size
            count += 1
        same(assembler.assemble(text_of(lines))[2], (b'\x3E' * start + code).ljust(4096, b'\x3E'), f'to {lines[-1]}')
    # Of one byte 70 and 16 of MOV A,XH; seven with a nibble; two pairs and TIMER; jumps; branches; HALT.
    same(count, 2 * (86 + 7 * 16 + 3 * 256 + 2 * 4096 + 12 * 2048 + 1), 'instructions')


for name, test in list(globals().items()):
    if name.startswith('test_'):
        test()
print(f'{checks} checks passed')
