"""Programs by chance as texts for the assembler, with the answer that each must get.

A program is made from its bytes: isa_table.py gives each instruction, its address is known, and only
then it gets an operand of that value. assembler_cases.py damages programs and says what for.
"""

import itertools
import re
from dataclasses import dataclass, field
from typing import List, Optional

import paths  # noqa: F401
import isa_table
from assembler import FIXED, LARGEST, MASK, UNWRITTEN

# Troubles in the order in which they are judged over the whole text.
CANNOT_READ, LABELS, PLACES, VALUES = range(4)
NUMBERS = {CANNOT_READ: 12, LABELS: 14, PLACES: 13, VALUES: 13}
NAMES = {CANNOT_READ: '12', LABELS: '14', PLACES: '13 of places', VALUES: '13 of values'}


# ---------------------------------------------------------------------------
# Words
# ---------------------------------------------------------------------------

# Labels that are nearly fixed words, or nearly numbers.
NEAR = ('R5 R6 R R00 JA JA4 JAA J MOVE MO AA A0 A1 B AB R1R R1R1 R0R1 R2R3 R3R2R R1R00 ORGA ORGS OR0 H FH '
        'ABH DEADH XH XXH X N RN PI ADDR TMR TMRL0 MR0 MR1A R4B R40 PB P PMM ONN O OF OFFF LOO LOOPS ONES '
        'RETII RE NO NOPE EIEI E DII HAL HALTS TIME TIMERS SOUN SOUNDS READS READFF DAAA JCC JN JTM CAL '
        'CALLS CLCC ST RRCC RLL INN OU Z9 ZZZZZZZZ').split()
LETTERS = 'ABCDEFGHIJKLMNOPQRSTUVWXYZ'
DIGITS = '0123456789'


def is_word(token):
    return token[0] in LETTERS + DIGITS


def words_of(text):
    """Words and signs."""
    return re.findall('[A-Z0-9]+|[^A-Z0-9 ]', text)


def fresh(rng, taken):
    """A label that is not taken; now it is."""
    while True:
        name = (rng.choice(NEAR) if rng.random() < 0.5 else
                rng.choice(LETTERS) + ''.join(rng.choices(LETTERS + DIGITS, k=rng.choice((0, 1, 2, 5, 30)))))
        if name not in taken and name not in FIXED:
            taken.add(name)
            return name


def numeral(rng, value):
    """A number as decimal or hexadecimal, at times with zeros in front."""
    zeros = '0' * rng.choice((0, 0, 0, 0, 0, 1, 2, 20))
    if rng.random() < 0.5:
        return f'{zeros}{value}'
    return re.sub('^(?=[A-F])', '0', f'{zeros}{value:X}H')


def plain_number(word):
    return int(word[:-1], 16) if word.endswith('H') else int(word)


# ---------------------------------------------------------------------------
# Operands
# ---------------------------------------------------------------------------

def term(rng, value, names, deep):
    """The tokens of one term of this value, with the values of the labels that it may name."""
    known = [name for name, at in names.items() if at == value]
    if known and rng.random() < 0.8:
        return [rng.choice(known)]
    if 0 <= value <= LARGEST and (not deep or rng.random() < 0.8):
        return [numeral(rng, value)]
    return ['(', *operand(rng, value, names, deep - 1), ')']


def operand(rng, value, names, deep=3, terms=None):
    """The tokens of an operand of this value, of so many terms or a few more, with parentheses so
    deep at most."""
    terms = terms or rng.choice((1, 1, 1, 2, 2, 3, 5))
    if terms == 1 and (deep or 0 <= value <= LARGEST):
        return term(rng, value, names, deep)
    tokens, left = [], value
    for _ in range(max(terms - 1, 1)):
        one = rng.choice([*names.values(), 0, 1, 15, 16, 255, rng.randrange(MASK), rng.choice((7, LARGEST))])
        sign = rng.choice('+-') if tokens else '+'
        tokens += [sign, *term(rng, one, names, deep)]
        left -= one if sign == '+' else -one
    while abs(left) > LARGEST:
        tokens += ['+' if left > 0 else '-', numeral(rng, LARGEST)]
        left -= LARGEST if left > 0 else -LARGEST
    return tokens[1:] + ['+' if left >= 0 else '-', *term(rng, abs(left), names, deep)]


def nested(rng, value, depth, names):
    """The tokens of an operand with parentheses exactly so deep."""
    if not depth:
        return [numeral(rng, value)]
    kind, some = rng.randrange(3), rng.randrange(100)
    if kind == 0:
        return ['(', *nested(rng, value, depth - 1, names), ')']
    if kind == 1:
        return [numeral(rng, value + some), '-', '(', *nested(rng, some, depth - 1, names), ')']
    return ['(', *nested(rng, value + some, depth - 1, names), ')', '-', *term(rng, some, names, deep=1)]


def depth_of(tokens):
    depth = deepest = 0
    for token in tokens:
        depth += (token == '(') - (token == ')')
        deepest = max(deepest, depth)
    return deepest


def evaluate(tokens, values):
    """The operand's value, from left to right, and the least on the way."""
    outer, total, sign, least = [], 0, 1, 0
    for token in tokens:
        if token in '+-':
            sign = 1 if token == '+' else -1
            continue
        if token == '(':
            outer.append((total, sign))
            total, sign = 0, 1
            continue
        if token == ')':
            inside = total
            total, sign = outer.pop()
        else:
            inside = values[token] if token in values else plain_number(token)
        total += sign * inside
        least = min(least, total)
    return total, least


# ---------------------------------------------------------------------------
# Programs
# ---------------------------------------------------------------------------

# Where bit 11 of a branch or the end of the mask matters.
EDGES = [0x000, 0x004, 0x008, 0x7FB, 0x7FC, 0x7FD, 0x7FE, 0x7FF, 0x800, 0xFFB, 0xFFC, 0xFFD, 0xFFE, 0xFFF]


@dataclass
class Line:
    """A line; one without tokens is blank."""
    tokens: list                    # after the label
    label: Optional[str] = None
    address: Optional[int] = None   # of its bytes, or its ORG's; None for a line of trouble
    code: Optional[isa_table.Code] = None
    instruction: Optional[isa_table.Instruction] = None
    front: int = 0                  # tokens before the operand
    raw: Optional[bytes] = None     # the whole line, where it is no row of tokens
    joined: bool = False            # nothing is put between it and the line before


@dataclass
class Program:
    """A program, and what was then done to it."""
    lines: List[Line]
    taken: set                                      # labels, defined or not
    troubles: list = field(default_factory=list)    # rank, line, what
    involved: set = field(default_factory=set)      # labels that a trouble is about
    tags: set = field(default_factory=set)

    def values(self, before=None):
        """The labels' values, or those above a line."""
        lines = itertools.takewhile(lambda line: line is not before, self.lines)
        return {line.label: line.address for line in lines if line.label and line.address is not None}

    def number(self, line):
        return next(number for number, one in enumerate(self.lines, 1) if one is line)

    def insert(self, rng, *lines, after=0, before=None):
        """Puts lines in, one right after the other, after so many lines and before a line."""
        end = len(self.lines) if before is None else self.number(before) - 1
        at = rng.choice([at for at in range(after, end + 1) if at == len(self.lines) or not self.lines[at].joined])
        for line in lines[1:]:
            line.joined = True
        self.lines[at:at] = lines

    def mask(self):
        image = bytearray([UNWRITTEN]) * MASK
        for line in self.lines:
            if line.instruction:
                code = isa_table.write(line.instruction)
                image[line.address:line.address + len(code)] = code
        return bytes(image)

    def planned(self):
        """The answer: the first line of the first kind of trouble."""
        if not self.troubles:
            return 0, 0, self.mask()
        rank, number = min((rank, self.number(line)) for rank, line, _ in self.troubles)
        return NUMBERS[rank], number, None

    def order(self):
        """The trouble that decides, and those of earlier lines that it goes before."""
        placed = sorted((rank, self.number(line), what) for rank, line, what in self.troubles)
        if not placed:
            return set()
        first, number, what = placed[0]
        over = {f'{NAMES[first]} goes before an earlier {NAMES[rank]}' for rank, at, _ in placed if rank > first and at < number}
        again = {f'{NAMES[first]} and another further on' for rank, at, _ in placed if rank == first and at > number}
        return {what} | over | again

    def shown(self):
        """What the lines without trouble show."""
        tags, values = set(), self.values()
        for line in (line for line in self.lines if line.address is not None):
            tokens = line.tokens[line.front:]
            tags.add('form ' + ' '.join(line.tokens[:line.front]))
            tags.add(f'label {line.label}' if line.label in NEAR else '')
            if line.address == MASK - 1:
                tags.add('a byte at FFF' if line.code else 'ORG 4095')
            if line.code and line.code.pattern.count('a') == 11 and line.address in EDGES:
                tags.add(f'a branch at {line.address:03X}')
            if tokens:
                tags.add(f'parentheses {depth_of(tokens)} deep')
                tags.add('negative on the way' if evaluate(tokens, values)[1] < 0 else '')
                tags.add('a sum of 100 terms' if sum(token in '+-' for token in tokens) >= 99 else '')
                tags.update(f'number {token.lstrip("0")}' for token in tokens if token.lstrip('0') in ('65535', 'FFFFH'))
        return tags - {''}


def set_operand(rng, line, front, value, values, **how):
    """Gives a line its tokens, with an operand of this value."""
    tokens = nested(rng, value, how['depth'], values) if 'depth' in how else operand(rng, value, values, **how)
    assert evaluate(tokens, values)[0] == value and depth_of(tokens) == how.get('depth', depth_of(tokens))
    line.tokens, line.front = front + tokens, len(front)


def set_instruction(rng, line, fields, values, **how):
    """Gives a line its instruction and its text, with an operand of ours in the number's place."""
    line.instruction = isa_table.Instruction(line.code, fields)
    text = isa_table.text(isa_table.placed(line.instruction, (line.address + line.code.length) % MASK))
    found = re.fullmatch('(.*[ ,])([0-9][0-9A-F]*H)', text)
    if found:
        set_operand(rng, line, words_of(found[1]), plain_number(found[2]), values, **how)
    else:
        line.tokens, line.front = words_of(text), len(words_of(text))


def any_fields(rng, code, target):
    """Fields of a code by chance, but for the target."""
    return tuple(target & ((1 << width) - 1) if letter == 'a' else rng.randrange(isa_table.field_limit(letter, width) + 1)
                 for letter, _, width in isa_table.field_runs(code.pattern))


def layout(rng, count, top):
    """Lines with addresses, codes and labels, no byte twice and none from `top` on."""
    lines, taken, written, at = [], set(), set(), 0
    while len(lines) < count:
        code = rng.choice(isa_table.CODES)
        here = set(range(at, at + code.length))
        label = fresh(rng, taken) if rng.random() < 0.4 else None
        if rng.random() < 0.1:
            lines.append(Line([]))
        elif rng.random() < 0.12 or here & written or max(here) >= top:
            at = rng.choice([edge for edge in EDGES if edge < top] + [rng.randrange(top) for _ in range(10)])
            lines.append(Line([], label, at))
        else:
            lines.append(Line([], label, at, code))
            written |= here
            at += code.length
    return lines, taken


def make_program(rng, count=None, top=MASK, **how):
    """A program that is accepted."""
    program = Program(*layout(rng, count or rng.choice((1, 3, 8, 15, 30)), top))
    values = program.values()
    for line in program.lines:
        if line.code:
            moved = (line.address + line.code.length) % MASK
            wide = line.code.pattern.count('a') == 12
            near = [at for at in values.values() if wide or not (at ^ moved) & 0x800]
            set_instruction(rng, line, any_fields(rng, line.code, rng.choice([rng.randrange(MASK), *near])), values, **how)
        elif line.address is not None:
            set_operand(rng, line, ['ORG'], line.address, program.values(before=line), **how)
    return program


def limit_of(code):
    """The largest operand of a code; None without one."""
    if 'addr' in code.mnemonic:
        return MASK - 1
    return {'XH': 15, 'n': 15, 'XXH': 15 if 'R4' in code.mnemonic else 255}.get(re.split('[ ,]', code.mnemonic)[-1])


def with_code(program):
    return [line for line in program.lines if line.code]


def with_value(program):
    return [line for line in with_code(program) if limit_of(line.code) is not None]


def with_branch(program):
    return [line for line in with_code(program) if line.code.pattern.count('a') == 11]


def base(rng):
    """A program to damage: it has a branch, and does not write the last two bytes."""
    while True:
        program = make_program(rng, rng.choice((8, 15, 30)), top=MASK - 2)
        if with_branch(program):
            return program


# ---------------------------------------------------------------------------
# Programs as text
# ---------------------------------------------------------------------------

def spaced(rng, tokens, style):
    """The tokens with spaces between: where they must be, as the summary has them, or anywhere."""
    out = ' ' * rng.randrange(4) if style == 'wide' else ''
    for at, token in enumerate(tokens):
        if at and style == 'wide':
            out += ' ' * rng.choice((0, 0, 1, 2, 7))
        elif at == 1 and style == 'plain' and token != ':':
            out += ' '
        if at and is_word(token) and is_word(tokens[at - 1]) and not out.endswith(' '):
            out += ' '
        out += token
    return out + (' ' * rng.randrange(4) if style == 'wide' else '')


def text_of(rng, program):
    """The program as text; its last line ends in LF or not."""
    style = rng.choice(('tight', 'plain', 'wide', 'wide'))
    rows = [spaced(rng, ([line.label, ':'] if line.label else []) + line.tokens, style).encode() if line.raw is None else line.raw
            for line in program.lines]
    return b'\n'.join(rows) + rng.choice((b'', b'\n'))
