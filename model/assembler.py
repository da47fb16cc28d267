"""Reference assembler of the HT1130, written from document 02, wish 4.

A line is reduced to its shape: fixed words and signs as they stand, a number or a label as '#'.
Parentheses are closed up from the inside, one layer of the whole shape at a time, and then sums;
what is left must be a line of document 001's summary, or ORG. No function here calls itself. An
operand's value comes from a list of signed terms.

Run as a program it is `assemble`: it reads source.asm and writes mask.bin.
"""

import re
from dataclasses import dataclass
from typing import Optional

import isa_table
from reference import MASK, read_file

LONGEST = 65535     # bytes of a text
LARGEST = 65535     # 'a number .. is at most 65,535'
DEEPEST = 16        # 'parentheses up to 16 deep'
UNWRITTEN = 0x3E    # 'Bytes not written are 3E'

# Why a text is refused: the number, and what the line has.
TOO_LONG = 12, 'the text is too long'
UNREADABLE = 12, 'the line cannot be read'
MISSING = 14, 'no line defines a label'
NOT_ABOVE = 14, 'ORG with a label that is not above'
AGAIN = 14, 'a label is defined again'
BAD_ORG = 13, 'ORG outside 0 to 4,095'
PAST_END = 13, 'a byte past 4,095'
TWICE = 13, 'a byte written twice'
BAD_VALUE = 13, 'a value outside its field'
BAD_BRANCH = 13, 'a branch that does not fit'


class Trouble(Exception):
    """A reason of those above, and its line."""

    def __init__(self, why, line):
        super().__init__(why, line)
        self.why, self.line = why, line


# ---------------------------------------------------------------------------
# The lines of the summary
# ---------------------------------------------------------------------------

@dataclass(frozen=True)
class Form:
    """A line of the summary, or ORG."""
    code: Optional[isa_table.Code]      # None for ORG
    fields: tuple                       # those that a word names: n of Rn and JAn
    limit: Optional[int]                # the largest operand; None where the line has none


def shape_of(text):
    """Words and signs, one space between any two."""
    return ' '.join(re.findall(r'[A-Z0-9]+|\S', text))


def operand_limit(pattern):
    """X and n 0 to 15, XX 0 to 255, an address 0 to 4,095; None where the code has no operand."""
    if 'a' in pattern:
        return MASK - 1
    width = pattern.count('d') + 4 * pattern.endswith('nnnn')
    return 2 ** width - 1 if width else None


def forms():
    """Each line by its shape. XH, XXH, addr and SOUND's n are no words: an operand stands there."""
    result = {shape_of('ORG #'): Form(None, (), None)}
    for code in isa_table.CODES:
        line = re.sub(r'\b(XXH|XH|addr|n)\b', '#', code.mnemonic)
        lines = [(line.replace('Pi', code.name).replace('Rn', code.name), ())]
        if not code.name and re.search('Rn|JAn', line):
            letter, _, width = isa_table.field_runs(code.pattern)[0]
            lines = [(line.replace('Rn', f'R{n}').replace('JAn', f'JA{n}'), (n,))
                     for n in range(isa_table.field_limit(letter, width) + 1)]
        for text, fields in lines:
            assert shape_of(text) not in result, text
            result[shape_of(text)] = Form(code, fields, operand_limit(code.pattern))
    return result


FORMS = forms()
# 'no fixed word of a mnemonic (as MOV, A, R4) nor ORG'
FIXED = {word for shape in FORMS for word in re.findall('[A-Z0-9]+', shape)}


# ---------------------------------------------------------------------------
# Reading a line
# ---------------------------------------------------------------------------

@dataclass(frozen=True)
class Line:
    """A line that is not blank."""
    number: int             # from 1
    label: Optional[str]
    form: Form
    terms: tuple            # the operand's: a sign, 1 or -1, and a number or a label


def number(word):
    """'decimal, or hexadecimal ending in H; it starts with a digit'; None for another word."""
    match = re.fullmatch('([0-9]+)|([0-9][0-9A-F]*)H', word)
    if not match:
        return None
    digits, base = (match[1], 10) if match[1] else (match[2], 16)
    digits = digits.lstrip('0')
    if len(digits) > len(str(LARGEST)):
        return None
    value = int(digits or '0', base)
    return value if value <= LARGEST else None


def kind(token):
    """Fixed words and signs as they are, '@' for a label, '#' for a number; None for no word."""
    if token in FIXED or not token.isalnum():
        return token
    if token[0].isalpha():
        return '@'
    return None if number(token) is None else '#'


LAYER = re.compile(r'\( #(?: [+-] #)* \)')      # a pair of parentheses with none inside
SUM = re.compile(r'#(?: [+-] #)+')


def closed(shape):
    """The shape with each operand as one '#', where its parentheses are 16 deep at most."""
    for _ in range(DEEPEST):
        if '(' not in shape:
            break
        shape = LAYER.sub('#', shape)
    return SUM.sub('#', shape)


def terms(tokens):
    """The operand's terms; a minus before a parenthesis turns the signs of what is inside."""
    outside, sign, result = [1], 1, []
    for token in tokens:
        if token == '+':
            sign = outside[-1]
        elif token == '-':
            sign = -outside[-1]
        elif token == '(':
            outside.append(sign)
        elif token == ')':
            outside.pop()
        else:
            result.append((sign, token if token[0].isalpha() else number(token)))
    return tuple(result)


def read(at, text):
    """The line, or None for a blank one."""
    tokens = re.findall(rb'[A-Z0-9]+|[^ ]', text)
    if not tokens:
        return None
    if not re.fullmatch(rb'[A-Z0-9,:+()\[\] -]*', text):
        raise Trouble(UNREADABLE, at)
    tokens = [token.decode('ascii') for token in tokens]
    kinds = [kind(token) for token in tokens]
    if None in kinds:
        raise Trouble(UNREADABLE, at)
    label = None
    if kinds[:2] == ['@', ':']:
        label, tokens, kinds = tokens[0], tokens[2:], kinds[2:]
    shape = closed(' '.join(kinds).replace('@', '#'))
    if shape not in FORMS:
        raise Trouble(UNREADABLE, at)
    operand = tokens[shape.count(' '):] if shape.endswith('#') else []      # it comes last
    return Line(at, label, FORMS[shape], terms(operand))


# ---------------------------------------------------------------------------
# The whole text
# ---------------------------------------------------------------------------

def read_all(text):
    """'12 a line that cannot be read, or the text too long (line 1)'; blank lines are left out."""
    if len(text) > LONGEST:
        raise Trouble(TOO_LONG, 1)
    lines = [read(at, content) for at, content in enumerate(text.split(b'\n'), 1)]
    return [line for line in lines if line]


def used(line):
    """The labels of a line's operand."""
    return {term for _, term in line.terms if isinstance(term, str)}


def check_labels(lines):
    """'14 a label missing, not above its ORG or defined again'."""
    defined = {line.label for line in lines}
    above = set()
    for line in lines:
        if used(line) - defined:
            raise Trouble(MISSING, line.number)
        if not line.form.code and used(line) - above:
            raise Trouble(NOT_ABOVE, line.number)
        if line.label in above:
            raise Trouble(AGAIN, line.number)
        if line.label:
            above.add(line.label)


def total(line, values):
    """The operand's value, with the labels' values."""
    return sum(sign * values.get(term, term) for sign, term in line.terms)


def place(lines):
    """The labels' values, and each instruction's address and line; '13 an ORG outside 0 to 4,095, a
    byte past 4,095 or written twice'."""
    address, values, placed, written = 0, {}, [], set()
    for line in lines:
        if not line.form.code:
            address = total(line, values)
            if not 0 <= address < MASK:
                raise Trouble(BAD_ORG, line.number)
        if line.label:              # 'on an ORG line it has the new address'
            values[line.label] = address
        if line.form.code:
            covered = set(range(address, address + line.form.code.length))
            if max(covered) >= MASK:
                raise Trouble(PAST_END, line.number)
            if covered & written:
                raise Trouble(TWICE, line.number)
            written |= covered
            placed.append((address, line))
            address += line.form.code.length
    return values, placed


def fields(address, line, values):
    """The fields of a line's code; '13 any other value outside its field, or a branch that does not
    fit'."""
    form = line.form
    if form.limit is None:
        return form.fields
    value = total(line, values)
    if not 0 <= value <= form.limit:
        raise Trouble(BAD_VALUE, line.number)
    pattern = form.code.pattern
    if pattern.count('a') == 11:    # 'whose target differs in bit 11 from its moved PC'
        moved = (address + form.code.length) % MASK
        if (moved ^ value) & 0x800:
            raise Trouble(BAD_BRANCH, line.number)
        return form.fields + (value & 0x7FF,)
    if len(isa_table.field_runs(pattern)) == 2:     # 'the first byte's nibble goes to R0 (R2)'
        return value % 16, value // 16
    return form.fields + (value,)


def mask_of(text):
    """The mask of a text that is accepted."""
    lines = read_all(text)
    check_labels(lines)
    values, placed = place(lines)
    mask = bytearray([UNWRITTEN]) * MASK
    for address, line in placed:
        code = isa_table.write(isa_table.Instruction(line.form.code, fields(address, line, values)))
        mask[address:address + len(code)] = code
    return bytes(mask)


def examine(text):
    """(None, 0, mask), or (why, line, None)."""
    try:
        return None, 0, mask_of(text)
    except Trouble as trouble:
        return trouble.why, trouble.line, None


def assemble(text):
    """(0, 0, mask), or (number, line, None)."""
    why, line, mask = examine(text)
    return (why[0] if why else 0), line, mask


def printed(answer, line):
    """What the program prints."""
    return f'refused {answer} at line {line}\n' if answer else ''


def main():
    answer, line, mask = assemble(read_file('source.asm'))
    print(printed(answer, line), end='')
    if mask:
        with open('mask.bin', 'wb') as file:
            file.write(mask)


if __name__ == '__main__':
    main()
