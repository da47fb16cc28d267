"""Writes the stored input of `assemble` and what it must print and write.

Each folder of tests/assemble is one case: source.asm, `expected`, what is printed, and mask.bin, what
is written, where the text is accepted; a file `missing` says that source.asm is left out. The answers
below are typed by hand and held to the reference model.
"""

from paths import ROOT
import assembler
import stored

CASES = ROOT / 'tests' / 'assemble'
LONGEST = 65535

# Each line of document 001's summary, with its registers, ports and bits, and its bytes.
SUMMARY = '''
ADD A,[R1R0] 09; ADC A,[R1R0] 08; SUB A,[R1R0] 0B; SBC A,[R1R0] 0A; ADD A,1H 4001; SUB A,2H 4102; DAA 36;
AND A,[R1R0] 1A; OR A,[R1R0] 1C; XOR A,[R1R0] 1B; AND [R1R0],A 1D; OR [R1R0],A 1F; XOR [R1R0],A 1E;
AND A,3H 4203; OR A,4H 4404; XOR A,5H 4305;
INC A 31; INC R0 10; INC R1 12; INC R2 14; INC R3 16; INC R4 18; INC [R1R0] 0C; INC [R3R2] 0E;
DEC A 3F; DEC R0 11; DEC R1 13; DEC R2 15; DEC R3 17; DEC R4 19; DEC [R1R0] 0D; DEC [R3R2] 0F;
MOV A,R0 21; MOV A,R1 23; MOV A,R2 25; MOV A,R3 27; MOV A,R4 29; MOV R0,A 20; MOV R1,A 22; MOV R2,A 24; MOV R3,A 26; MOV R4,A 28;
MOV A,[R1R0] 04; MOV A,[R3R2] 06; MOV [R1R0],A 05; MOV [R3R2],A 07;
MOV A,6H 76; MOV R1R0,78H 5807; MOV R3R2,9AH 6A09; MOV R4,0BH 460B;
RL A 01; RLC A 03; RR A 00; RRC A 02; IN A,PM 32; IN A,PS 33; IN A,PP 34; OUT PA,A 30;
JMP 0ABCH EABC; JC 123H C123; JNC 234H CA34; JTMR 345H D345; JA0 456H 8456; JA1 567H 8D67; JA2 678H 9678; JA3 789H 9F89;
JZ A,012H B012; JNZ A,123H B923; JNZ R0,234H A234; JNZ R1,345H AB45; JNZ R4,456H DC56;
CALL 0DEFH FDEF; RET 2E; RETI 2F; CLC 2A; STC 2B; EI 2C; DI 2D; NOP 3E;
TIMER 0CDH 47CD; TIMER ON 38; TIMER OFF 39; MOV A,TMRL 3A; MOV A,TMRH 3B; MOV TMRL,A 3C; MOV TMRH,A 3D;
READ R4A 4C; READ MR0A 4E; READF R4A 4D; READF MR0A 4F;
SOUND 0EH 450E; SOUND A 4B; SOUND ONE 48; SOUND LOOP 49; SOUND OFF 4A; HALT 373E'''
SUMMARY = [line.strip().rpartition(' ')[::2] for line in SUMMARY.split(';')]


def deep(depth):
    return '(' * depth + '5' + ')' * depth


def cases():
    """Name, text (None is a missing file), the bytes by address or the number and line of a refusal,
    and what the case guards."""
    yield ('every-line', '\n'.join(line for line, _ in SUMMARY), {0: ''.join(code for _, code in SUMMARY)},
           "each line of document 001's summary; its texts are those that `checkmask` prints")
    yield 'empty', '', {}, 'no line at all: every byte is 3Eh'
    yield 'missing', None, {}, 'a missing file counts as empty'
    yield 'last-line-without-lf', 'INC A\nDEC A', {0: '313F'}, 'the last line may lack its LF'
    yield ('unwritten-bytes', 'ORG 0FFFH\nRR A\nORG 7FFH\nRR A\n', {0x7FF: '00', 0xFFF: '00'},
           'the other bytes are 3Eh, before and after')
    yield ('spaces', '\n   \n  L  :  JMP  (  L  +  1  )  \nMOV   A,[  R3R2 ]\nM:CALL(M)\n', {0: 'E00106F003'},
           'any spaces around words and signs, or none; blank lines')
    yield ('hexadecimal', 'MOV R1R0,10\nMOV R1R0,10H\nMOV R3R2,0AH\nTIMER 0FFH\nJMP 000000000000000000000000012\n',
           {0: '5A00' '5001' '6A00' '47FF' 'E00C'}, 'H at the end; a 0 in front counts nothing; the low nibble is in the first byte')
    yield ('difference', 'JMP 10-3-2\nJMP 10-(3-2)\nJMP 10-(3-(2-1))\n', {0: 'E005' 'E009' 'E008'},
           'read from left to right; a minus before a parenthesis')
    yield ('negative-on-the-way', 'MOV A,3-5+4\nJMP 0-65535-65535+65535+65535+1\n', {0: '72E001'},
           'values on the way may be below 0 and over 65,535')
    yield 'depth-16', f'JMP {deep(16)}+{deep(16)}\n', {0: 'E00A'}, 'parentheses 16 deep, twice'
    yield 'refused-12-depth-17', f'NOP\nJMP {deep(17)}\n', (12, 2), 'parentheses 17 deep'
    yield ('labels', 'JMP NEXT\nHERE: CALL HERE\nHALT\nNEXT: JMP HERE+1\n', {0: 'E006' 'F002' '373E' 'E003'},
           "a label has its own line's address, not the next one's, also before its line and with two bytes")
    yield ('nearly-fixed-words', 'R5: JMP JA4\nJA4: MOV A,R5\nH: JMP XH\nXH: JMP H\n', {0: 'E002' '70' 'E005' 'E003'},
           'labels that are no fixed words, where a register would stand too')
    yield 'refused-12-fixed-word', 'X: NOP\nR4: NOP\n', (12, 2), 'a fixed word is no label'
    yield 'refused-12-fixed-word-as-operand', 'MOV A,PM\n', (12, 1), 'nor an operand'
    yield ('org-label', 'L: ORG 10H\nJMP L\nORG L+8\nM: JMP M\n', {0x010: 'E010', 0x018: 'E018'},
           'the label of an ORG line has the new address')
    yield ('org-names-a-number', 'DIGIT: ORG 0E0H\nRESET: ORG 0\nMOV R1R0,DIGIT+1\n', {0: '510E'},
           'ORG with no byte after it writes nothing')
    yield 'last-address', 'ORG 4094\nJMP 0\nX: ORG 4095\n', {0xFFE: 'E000'}, 'ORG 4095, and bytes to the end'
    yield ('branch-at-7FD', 'ORG 7FDH\nJZ A,010H\nJZ A,810H\n', {0x7FD: 'B010' 'B010'},
           'at 7FDh the moved address is in the lower half, at 7FFh in the upper')
    yield 'branch-at-7FE', 'ORG 7FEH\nJZ A,810H\n', {0x7FE: 'B010'}, 'at 7FEh it is in the upper half'
    yield 'branch-at-FFE', 'ORG 0FFEH\nJNZ R4,7FFH\n', {0xFFE: 'DFFF'}, 'at FFEh it is 0'
    yield 'refused-13-branch-at-7FE', 'ORG 7FEH\nJZ A,010H\n', (13, 2), "bit 11 of the moved address, not of the branch's own"
    yield 'refused-13-branch-at-FFE', 'ORG 0FFEH\nJZ A,810H\n', (13, 2), 'modulo 4,096'
    yield 'refused-13-nibble', 'MOV A,15\nMOV A,16\n', (13, 2), 'a nibble is 0 to 15'
    yield 'refused-13-r4', 'MOV R4,16\n', (13, 1), 'MOV R4 has a nibble, though the summary prints XXH'
    yield 'refused-13-byte', 'TIMER 255\nMOV R1R0,0-1\n', (13, 2), 'a byte is 0 to 255'
    yield 'refused-13-address', 'JMP 4095\nCALL 4096\n', (13, 2), 'an address is 0 to 4,095'
    yield 'refused-13-org', 'NOP\nORG 4096\n', (13, 2), 'ORG past the end, though no byte follows'
    yield 'refused-13-org-below-0', 'ORG 1-2\n', (13, 1), 'ORG below 0'
    yield 'refused-13-past-the-end', 'ORG 4095\nJMP 0\n', (13, 2), 'the second byte would be at 4,096'
    yield 'refused-13-twice', 'JMP 0\nNOP\nORG 1\nNOP\n', (13, 4), 'a byte on the second byte of a line'
    yield 'refused-13-twice-3e', 'NOP\n\nORG 0\nNOP\n', (13, 4), 'a 3Eh that was written counts as written'
    yield ('refused-13-places-first', 'MOV A,16\nJC 800H\nORG 0\nNOP\n', (13, 4),
           'a byte twice goes before a value out of range of an earlier line')
    yield 'refused-14-missing', 'HERE: NOP\nJMP HER\n', (14, 2), 'a label that only starts like another'
    yield 'refused-14-again', 'X: NOP\nY: NOP\nX: NOP\n', (14, 3), 'the line of the second definition'
    yield 'refused-14-org-below', 'ORG X\nX: NOP\n', (14, 1), 'ORG needs its labels above'
    yield 'refused-14-org-itself', 'NOP\nX: ORG X\n', (14, 2), 'its own label is not above'
    yield 'refused-14-before-13', 'ORG 4096\nMOV A,16\nJMP X\n', (14, 3), '14 goes before both kinds of 13 of earlier lines'
    yield 'refused-12-before-14', 'MOV A,16\nJMP X\nORG 4096\nNOP NOP\n', (12, 4), '12 goes before all of them'
    yield 'refused-12-label-alone', 'X:\nNOP\n', (12, 1), 'a label stands before a mnemonic or ORG'
    yield 'refused-12-number', 'JMP 65535-65535\nJMP 65536-65536\n', (12, 2), 'a number is at most 65,535, whatever is done with it'
    yield 'refused-12-cr', 'NOP\nNOP\r\n', (12, 2), 'CR is no space'
    yield 'refused-12-one-word', 'INCA\n', (12, 1), 'two words need a space between'
    yield 'refused-12-leading-sign', 'MOV A,-1\n', (12, 1), 'an operand starts with no sign'
    yield 'longest', ' ' * (LONGEST - 6) + '\nINC A', {0: '31'}, '65,535 bytes'
    yield ('refused-12-too-long', 'NOP\n?' + ' ' * (LONGEST - 4), (12, 1),
           '65,536 bytes: line 1, though the second cannot be read')


def expected(text, answer):
    """What is printed, and the mask or None; the model must say the same."""
    made = assembler.assemble((text or '').encode())
    if isinstance(answer, tuple):
        assert made == (*answer, None), (text, made[:2], answer)
    else:
        image = bytearray([0x3E]) * 4096
        for address, code in answer.items():
            image[address:address + len(code) // 2] = bytes.fromhex(code)
        assert made == (0, 0, bytes(image)), (text, made[:2])
    return assembler.printed(*made[:2]).encode(), made[2]


def readme():
    head = ('# Stored cases of `assemble`\n\nEach folder is one case: `source.asm`, what the program must print, `expected`, and, where the '
            'text is accepted, what it\nmust write, `mask.bin`. A file `missing` says that source.asm is left out. '
            '`tools/make/make_assemble_cases.py` makes them all,\nthis page too; `tools/compare/assembler_differential.py` runs them.\n')
    return stored.page(head, ((name, guards) for name, _, _, guards in cases()))


def files():
    """All that is stored, as a dict from paths to bytes."""
    result = {CASES / 'README.md': readme()}
    for name, text, answer, _ in cases():
        printed, mask = expected(text, answer)
        made = {} if mask is None else {'mask.bin': mask}
        result |= stored.case_files(CASES / name, {'source.asm': None if text is None else text.encode(), 'expected': printed, **made})
    return result


if __name__ == '__main__':
    stored.write_files(files())
