"""HT1130 instruction table, typed from document 001.

One row for each line of its 'Instruction Set Summary', in that order, with
the 'Machine code' of its 'Instruction Definitions'. Document 001 prints too
few a's in branch targets and one d too few in TIMER XXH; the patterns here
are filled up to whole bytes.

Run as a program it prints one line for each first byte and five second bytes:
    FF SS READING L C BYTES
"""

from dataclasses import dataclass
from functools import lru_cache

# (mnemonic, machine codes, bytes, cycles). Where document 001 prints several
# codes for one line, each has the printed register or port name in front.
TABLE = [
    # Arithmetic
    ('ADD A,[R1R0]', ['00001001'], 1, 1),
    ('ADC A,[R1R0]', ['00001000'], 1, 1),
    ('SUB A,[R1R0]', ['00001011'], 1, 1),
    ('SBC A,[R1R0]', ['00001010'], 1, 1),
    ('ADD A,XH', ['01000000 0000dddd'], 2, 2),
    ('SUB A,XH', ['01000001 0000dddd'], 2, 2),
    ('DAA', ['00110110'], 1, 1),
    # Logic Operation
    ('AND A,[R1R0]', ['00011010'], 1, 1),
    ('OR A,[R1R0]', ['00011100'], 1, 1),
    ('XOR A,[R1R0]', ['00011011'], 1, 1),
    ('AND [R1R0],A', ['00011101'], 1, 1),
    ('OR [R1R0],A', ['00011111'], 1, 1),
    ('XOR [R1R0],A', ['00011110'], 1, 1),
    ('AND A,XH', ['01000010 0000dddd'], 2, 2),
    ('OR A,XH', ['01000100 0000dddd'], 2, 2),
    ('XOR A,XH', ['01000011 0000dddd'], 2, 2),
    # Increment and Decrement
    ('INC A', ['00110001'], 1, 1),
    ('INC Rn', ['0001nnn0'], 1, 1),
    ('INC [R1R0]', ['00001100'], 1, 1),
    ('INC [R3R2]', ['00001110'], 1, 1),
    ('DEC A', ['00111111'], 1, 1),
    ('DEC Rn', ['0001nnn1'], 1, 1),
    ('DEC [R1R0]', ['00001101'], 1, 1),
    ('DEC [R3R2]', ['00001111'], 1, 1),
    # Data Move
    ('MOV A,Rn', ['0010nnn1'], 1, 1),
    ('MOV Rn,A', ['0010nnn0'], 1, 1),
    ('MOV A,[R1R0]', ['00000100'], 1, 1),
    ('MOV A,[R3R2]', ['00000110'], 1, 1),
    ('MOV [R1R0],A', ['00000101'], 1, 1),
    ('MOV [R3R2],A', ['00000111'], 1, 1),
    ('MOV A,XH', ['0111dddd'], 1, 1),
    ('MOV R1R0,XXH', ['0101dddd 0000dddd'], 2, 2),
    ('MOV R3R2,XXH', ['0110dddd 0000dddd'], 2, 2),
    ('MOV R4,XXH', ['01000110 0000dddd'], 2, 2),  # definition: MOV R4,XH
    # Rotate
    ('RL A', ['00000001'], 1, 1),
    ('RLC A', ['00000011'], 1, 1),
    ('RR A', ['00000000'], 1, 1),
    ('RRC A', ['00000010'], 1, 1),
    # Input and Output
    ('IN A,Pi', ['PM 00110010', 'PS 00110011', 'PP 00110100'], 1, 1),
    ('OUT PA,A', ['00110000'], 1, 1),
    # Branch
    ('JMP addr', ['1110aaaa aaaaaaaa'], 2, 2),
    ('JC addr', ['11000aaa aaaaaaaa'], 2, 2),
    ('JNC addr', ['11001aaa aaaaaaaa'], 2, 2),
    ('JTMR addr', ['11010aaa aaaaaaaa'], 2, 2),
    ('JAn addr', ['100nnaaa aaaaaaaa'], 2, 2),
    ('JZ A,addr', ['10110aaa aaaaaaaa'], 2, 2),
    ('JNZ A,addr', ['10111aaa aaaaaaaa'], 2, 2),
    ('JNZ Rn,addr', ['R0 10100aaa aaaaaaaa',
                     'R1 10101aaa aaaaaaaa',
                     'R4 11011aaa aaaaaaaa'], 2, 2),
    # Subroutine
    ('CALL addr', ['1111aaaa aaaaaaaa'], 2, 2),
    ('RET', ['00101110'], 1, 1),
    ('RETI', ['00101111'], 1, 1),
    # Flag
    ('CLC', ['00101010'], 1, 1),
    ('STC', ['00101011'], 1, 1),
    ('EI', ['00101100'], 1, 1),
    ('DI', ['00101101'], 1, 1),
    ('NOP', ['00111110'], 1, 1),
    # Timer
    ('TIMER XXH', ['01000111 dddddddd'], 2, 2),
    ('TIMER ON', ['00111000'], 1, 1),
    ('TIMER OFF', ['00111001'], 1, 1),
    ('MOV A,TMRL', ['00111010'], 1, 1),
    ('MOV A,TMRH', ['00111011'], 1, 1),
    ('MOV TMRL,A', ['00111100'], 1, 1),
    ('MOV TMRH,A', ['00111101'], 1, 1),
    # Table Read
    ('READ R4A', ['01001100'], 1, 2),
    ('READ MR0A', ['01001110'], 1, 2),
    ('READF R4A', ['01001101'], 1, 2),
    ('READF MR0A', ['01001111'], 1, 2),
    # Sound Control
    ('SOUND n', ['01000101 0000nnnn'], 2, 2),
    ('SOUND A', ['01001011'], 1, 1),
    ('SOUND ONE', ['01001000'], 1, 1),
    ('SOUND LOOP', ['01001001'], 1, 1),
    ('SOUND OFF', ['01001010'], 1, 1),
    # Miscellaneous
    ('HALT', ['00110111 00111110'], 2, 2),
]


@dataclass(frozen=True)
class Refused:
    """A refusal: its number, and its offset where document 01 gives one."""
    number: int
    offset: int = 0


@dataclass(frozen=True)
class Code:
    """One machine code of one summary line."""
    mnemonic: str
    name: str       # PM, PS, PP, R0, R1, R4 where several codes are printed
    pattern: str    # '0', '1' and field letters, no blanks
    length: int
    cycles: int


@dataclass(frozen=True)
class Instruction:
    """A code with its field values, in the order of the pattern."""
    code: Code
    fields: tuple


def codes():
    """All machine codes of the table, in its order."""
    result = []
    for mnemonic, printed, length, cycles in TABLE:
        for text in printed:
            parts = text.split(' ')
            name = parts.pop(0) if parts[0][0] in 'PR' else ''
            pattern = ''.join(parts)
            assert len(pattern) == 8 * length
            result.append(Code(mnemonic, name, pattern, length, cycles))
    return result


@lru_cache(maxsize=None)
def field_runs(pattern):
    """Fields as (letter, first, width): runs of one letter in the pattern."""
    runs = []
    for i, bit in enumerate(pattern):
        if bit in '01':
            continue
        if i > 0 and pattern[i - 1] == bit:
            letter, first, width = runs[-1]
            runs[-1] = (letter, first, width + 1)
        else:
            runs.append((bit, i, 1))
    return tuple(runs)


def field_limit(letter, width):
    """Largest field value; 'nnn being 0 to 4'."""
    return 4 if (letter, width) == ('n', 3) else (1 << width) - 1


def match(pattern, bits):
    """Field values of bits against the pattern's start, or None."""
    for want, got in zip(pattern, bits):
        if want in '01' and want != got:
            return None
    values = []
    for letter, first, width in field_runs(pattern[:len(bits)]):
        value = int(bits[first:first + width], 2)
        if value > field_limit(letter, width):
            return None
        values.append(value)
    return tuple(values)


def find_first(byte):
    """The code whose first eight bits fit the byte, or None."""
    fits = [c for c in CODES if match(c.pattern[:8], f'{byte:08b}') is not None]
    assert len(fits) <= 1
    return fits[0] if fits else None


CODES = codes()
BY_FIRST = [find_first(byte) for byte in range(256)]
# Length and cycles by first byte, 0 and 0 where no pattern fits.
LENGTH_CYCLES = [(c.length, c.cycles) if c else (0, 0) for c in BY_FIRST]


@lru_cache(maxsize=None)
def read(first, second):
    """The instruction at two bytes, or None where it cannot be read."""
    code = BY_FIRST[first]
    if code is None:
        return None
    values = match(code.pattern, (f'{first:08b}{second:08b}')[:8 * code.length])
    return None if values is None else Instruction(code, values)


def write(instruction):
    """The instruction's bytes; refusal 3 for a field outside its pattern."""
    pattern, bits = instruction.code.pattern, list(instruction.code.pattern)
    runs = field_runs(pattern)
    if len(runs) != len(instruction.fields):
        return Refused(3)
    for (letter, first, width), value in zip(runs, instruction.fields):
        if not 0 <= value <= field_limit(letter, width):
            return Refused(3)
        bits[first:first + width] = f'{value:0{width}b}'
    text = ''.join(bits)
    return bytes(int(text[i:i + 8], 2) for i in range(0, len(text), 8))


def number(value, width):
    """An operand of so many bits, as text: upper-case hexadecimal ending in H, with a 0 before a letter."""
    digits = f'{value:0{(width + 3) // 4}X}H'
    return '0' + digits if digits[0].isalpha() else digits


def text(instruction):
    """The mnemonic with its operands filled in."""
    code, out = instruction.code, instruction.code.mnemonic
    if code.name:
        out = out.replace('Pi', code.name).replace('Rn', code.name)
    data = []
    for (letter, _, width), value in zip(field_runs(code.pattern), instruction.fields):
        if letter == 'a':
            out = out.replace('addr', number(value, 12))
        elif letter == 'd':
            data.append((value, width))
        elif out == 'SOUND n':
            out = 'SOUND ' + number(value, width)
        else:
            out = out.replace('Rn', f'R{value}').replace('JAn', f'JA{value}')
    if data:
        # Two nibbles: the second byte's is the high one.
        value = sum(nibble << (4 * place) for place, (nibble, _) in enumerate(data))
        operand = number(value, sum(width for _, width in data))
        out = out.replace('XXH', operand) if 'XXH' in out else out.replace('XH', operand)
    return out


def placed(instruction, moved):
    """The instruction where the moved address is this: a field of 11 address bits takes bit 11 from it."""
    runs = field_runs(instruction.code.pattern)
    whole = [value + (moved & 0x800) if (letter, width) == ('a', 11) else value
             for (letter, _, width), value in zip(runs, instruction.fields)]
    return Instruction(instruction.code, tuple(whole))


def line(first, second):
    """One line of the printed table. A branch is shown where the moved address is 16 times the second byte."""
    instruction = read(first, second)
    length, cycles = LENGTH_CYCLES[first]
    if instruction is None:
        reading, written = 'unreadable', '-'
    else:
        reading = text(placed(instruction, 16 * second))
        written = ' '.join(f'{b:02X}' for b in write(instruction))
    return f'{first:02X} {second:02X} {reading} {length} {cycles} {written}'


def lines():
    """What isa_main must print."""
    return [line(first, second) for first in range(256) for second in (0x00, 0x0F, 0x10, 0x3E, 0xFF)]


def main():
    print('\n'.join(lines()))


if __name__ == '__main__':
    main()
