"""Texts for the assembler, good and damaged, always the same ones, and a count of what they meet.

A text that is made on purpose comes with its answer (`planned`), and the model is held to it; texts
damaged by chance have the model's answer alone.

Run as a program it makes all texts, holds the model to them and prints what they meet.
"""

import collections
import itertools
import random
import re
import sys
from dataclasses import dataclass
from typing import Optional

import paths  # noqa: F401
import assembler
import isa_table
from assembler import (AGAIN, BAD_BRANCH, BAD_ORG, BAD_VALUE, DEEPEST, FIXED, FORMS, LARGEST, LONGEST, MASK, MISSING, NOT_ABOVE,
                       PAST_END, TOO_LONG, TWICE, UNREADABLE, UNWRITTEN)
from assembler_programs import (CANNOT_READ, DIGITS, LABELS, LETTERS, NAMES, NEAR, PLACES, VALUES, Line, Program, base, fresh,
                                is_word, limit_of, make_program, nested, numeral, operand, set_instruction, set_operand,
                                spaced, text_of, with_branch, with_code, with_value, words_of)


@dataclass
class Case:
    """A text, None for a missing file; the answer if its maker knows it; and what it shows."""
    name: str
    text: Optional[bytes]
    planned: Optional[tuple]        # number, line, mask
    tags: frozenset = frozenset()


LOOKS = {
    'no LF at the end': rb'[^\n]\Z',
    'an LF at the end': rb'\n\Z',
    'spaces before a line': rb'(?m)^ +[^ \n]',
    'spaces after a line': rb'(?m)[^ \n] +$',
    'spaces around a sign': rb'[A-Z0-9] +[],:+()[-] +[A-Z0-9]',
    'no space around a sign': rb'[A-Z0-9][],:+()[-]+[A-Z0-9]',
    'many spaces between words': rb'[A-Z0-9] {2,}[A-Z0-9]',
    'a blank line': rb'(?m)^\n',
    'a line of spaces': rb'(?m)^ +\n',
    'a decimal number': rb'\b[0-9]+\b',
    'a hexadecimal number': rb'\b[0-9][0-9A-F]*H\b',
    'zeros before a number': rb'\b0[0-9]',
    'a label before ORG': rb'[A-Z0-9] *: *ORG\b',
}


def looks_of(text):
    """What the text looks like, whatever it says."""
    return {name for name, look in LOOKS.items() if re.search(look, text)}


def case(rng, name, program, *tags):
    text = text_of(rng, program)
    return Case(name, text, program.planned(), frozenset({*tags} | program.tags | program.order() | program.shown() | looks_of(text)))


# ---------------------------------------------------------------------------
# Lines that cannot be read
# ---------------------------------------------------------------------------

MEANINGLESS = sorted(set(range(256)) - set((LETTERS + DIGITS + ' ,[]:+-()\n').encode()))


def some_line(rng, program, least=1):
    """The tokens of a line of code that has so many."""
    return list(rng.choice([line.tokens for line in with_code(program) if len(line.tokens) >= least]))


def edited(rng, program, edit):
    """The tokens of a line with its operand edited."""
    line = rng.choice(with_value(program))
    return line.tokens[:line.front] + edit(line.tokens[line.front:])


def one_byte_more(rng, program, choices):
    row = spaced(rng, some_line(rng, program), rng.choice(('tight', 'plain', 'wide'))).encode()
    at = rng.randrange(len(row) + 1)
    return row[:at] + bytes([rng.choice(choices)]) + row[at:]


def one_token_less(rng, program):
    tokens = some_line(rng, program, least=2)
    del tokens[rng.randrange(len(tokens))]
    return tokens


def one_token_more(rng, program, choices):
    tokens = some_line(rng, program)
    tokens.insert(rng.randrange(len(tokens) + 1), rng.choice(choices))
    return tokens


def words_in_one(rng, program):
    """Two words that stand side by side, as one."""
    rows = [line.tokens for line in with_value(program) if is_word(line.tokens[1])]
    rows += [words_of(text) for text in ('INC A', 'TIMER ON', 'SOUND 3', 'ORG 5', 'CALL X', 'JA0 7', 'READF R4A')]
    tokens = rng.choice(rows)
    return [tokens[0] + tokens[1], *tokens[2:]]


def word_in_two(rng, program):
    tokens = some_line(rng, program)
    at = rng.choice([at for at, token in enumerate(tokens) if token in FIXED and len(token) > 1])
    cut = rng.randrange(1, len(tokens[at]))
    return tokens[:at] + [tokens[at][:cut], tokens[at][cut:]] + tokens[at + 1:]


# Words that belong together in no line.
WRONG_LINES = re.split(r';\s+', '''ADD A,R1R0; ADD A,[R3R2]; ADC A,5; SBC A,1; ADD [R1R0],A; AND [R3R2],A; AND A,[R3R2]; ADD A,R4; SUB R4,A;
    INC R5; INC PM; INC 4; DEC R1R0; DEC [R4]; DEC R9; MOV R5,A; MOV R4,R3; MOV R3,5; MOV A,PM; MOV A,A; MOV R1R0,A; MOV R1R0,[R3R2];
    MOV [R1R0],5; MOV TMRL,5; MOV TMRH,R4; MOV PA,A; MOV 5,A; MOV X,A; MOV A; MOV A,TMR,L; RL R4; RLC; RR 1; RRC [R1R0]; IN A,PA; IN A,5;
    IN PM,A; IN A,X; OUT PM,A; OUT A,PA; OUT PA,5; JMP A,5; JMP R4; JC A,5; JZ 5; JZ R4,5; JNZ 5; JNZ R2,5; JNZ R3,5; JA 5; JA4 5;
    JA0 A,5; JA0; JTMR; CALL A; CALL; RET 5; RETI A; CLC A; EI 1; DI ON; NOP NOP; HALT 5; TIMER A; TIMER ONE; TIMER LOOP; TIMER;
    TIMER ON OFF; READ A; READ R4; READ 5; READF; READF R0; SOUND ON; SOUND R4; SOUND; SOUND A,5; SOUND LOOP ONE; ORG; ORG A; ORG R4;
    ORG 1,2; ORG ORG; ORG MOV; EQU 5; DB 5; END; MOVE A,5; LD A,5; A; R4; [R1R0]; ,; +; [; ]; 5; 5H; XYZ; XYZ 5; XYZ A,5''')
BAD_NUMBERS = ['65536', '10000H', '065536', '010000H', '99999', '4294967296', '65536H', '0FFFFFH', '1' + '0' * 60,
               '18446744073709551616', '12B', '0G', '5HH', '0H1', '1F', '0X10', '5L', '0B', '1O', '9Z', '00HH', '1FG', '0AHA']

# By what is wrong: tokens, or the bytes of a whole line.
WRONG = {
    'a byte without a meaning': lambda rng, p: one_byte_more(rng, p, MEANINGLESS),
    'a tab': lambda rng, p: one_byte_more(rng, p, b'\t'),
    'a CR': lambda rng, p: one_byte_more(rng, p, b'\r'),
    'a NUL': lambda rng, p: one_byte_more(rng, p, b'\0'),
    'lower case': lambda rng, p: one_byte_more(rng, p, LETTERS.lower().encode()),
    'a byte over 127': lambda rng, p: one_byte_more(rng, p, range(128, 256)),
    'a comment': lambda rng, p: spaced(rng, some_line(rng, p), 'plain').encode() + b' ; SHOW IT',
    'a label alone': lambda rng, p: [fresh(rng, p.taken), ':'],
    'a word alone': lambda rng, p: [fresh(rng, p.taken)],
    'no colon after a label': lambda rng, p: [fresh(rng, p.taken), *some_line(rng, p)],
    'two labels': lambda rng, p: [fresh(rng, p.taken), ':', fresh(rng, p.taken), ':', *some_line(rng, p)],
    'a colon and no label': lambda rng, p: rng.choice(([':'], [':', *some_line(rng, p)], [*some_line(rng, p), ':'])),
    'a number as label': lambda rng, p: [numeral(rng, rng.randrange(MASK)), ':', *some_line(rng, p)],
    'a digit before a label': lambda rng, p: [rng.choice(DIGITS) + fresh(rng, p.taken), ':', *some_line(rng, p)],
    'a label in parentheses': lambda rng, p: ['(', fresh(rng, p.taken), ')', ':', *some_line(rng, p)],
    'a fixed word as label': lambda rng, p: [rng.choice(sorted(FIXED)), ':', *some_line(rng, p)],
    'no line of the summary': lambda rng, p: words_of(rng.choice(WRONG_LINES)),
    'a token too few': one_token_less,
    'a word too many': lambda rng, p: [*some_line(rng, p), rng.choice(sorted(FIXED) + NEAR)],
    'a comma or bracket too many': lambda rng, p: one_token_more(rng, p, ',[]'),
    'two words in one': words_in_one,
    'a word in two': word_in_two,
    'a fixed word in an operand': lambda rng, p: edited(rng, p, lambda o: [*o, '+', rng.choice(sorted(FIXED))]),
    'no operand': lambda rng, p: edited(rng, p, lambda o: []),
    'a sign before an operand': lambda rng, p: edited(rng, p, lambda o: [rng.choice('+-'), *o]),
    'a sign first in parentheses': lambda rng, p: edited(rng, p, lambda o: ['(', rng.choice('+-'), *o, ')']),
    'a sign after an operand': lambda rng, p: edited(rng, p, lambda o: [*o, rng.choice('+-')]),
    'two signs': lambda rng, p: edited(rng, p, lambda o: [*o, rng.choice('+-'), rng.choice('+-'), '1']),
    'empty parentheses': lambda rng, p: edited(rng, p, lambda o: rng.choice((['(', ')'], [*o, '+', '(', ')'], ['(', '(', ')', ')']))),
    'a parenthesis not closed': lambda rng, p: edited(rng, p, lambda o: ['(', *o]),
    'a parenthesis not opened': lambda rng, p: edited(rng, p, lambda o: [*o, ')']),
    'terms side by side': lambda rng, p: edited(rng, p, lambda o: [*o, *rng.choice((['5'], ['(', '5', ')'], ['X']))]),
    'brackets for parentheses': lambda rng, p: edited(rng, p, lambda o: ['[', *o, ']']),
    'a comma or colon in an operand': lambda rng, p: edited(rng, p, lambda o: [*o, rng.choice(',:'), '1']),
    'a word that is no number': lambda rng, p: edited(rng, p, lambda o: rng.choice(([], [*o, '-'])) + [rng.choice(BAD_NUMBERS)]),
    'a number of 65,536': lambda rng, p: edited(rng, p, lambda o: [rng.choice(('65536', '10000H')), '-', *o]),
    'parentheses 17 deep': lambda rng, p: edited(rng, p, lambda o: nested(rng, 5, DEEPEST + 1, p.values())),
    'parentheses deeper': lambda rng, p: edited(rng, p, lambda o: nested(rng, 5, rng.choice((18, 20, 33, 100)), p.values())),
}


def add_unreadable(rng, program, what=None):
    what = what or rng.choice(list(WRONG))
    made = WRONG[what](rng, program)
    line = Line([], raw=made) if isinstance(made, bytes) else Line(made)
    program.insert(rng, line)
    program.troubles.append((CANNOT_READ, line, what))


# ---------------------------------------------------------------------------
# Labels
# ---------------------------------------------------------------------------

def plain_line(rng, label=None):
    return Line(words_of(rng.choice(('NOP', 'INC A', 'HALT', 'MOV A,5', 'MOV [R3R2],A', 'JMP 0'))), label)


def maybe_label(rng, program):
    return fresh(rng, program.taken) if rng.random() < 0.3 else None


def add_missing(rng, program):
    """A line with a label of no line, which may be nearly one of the program's."""
    near = [name for label in program.values() for name in (label + '0', label + 'X', label[:-1], 'Z' + label, label[1:])]
    near = [name for name in near if name and name[0] in LETTERS and name not in FIXED | program.taken]
    name = rng.choice(near) if near and rng.random() < 0.7 else fresh(rng, program.taken)
    program.taken.add(name)
    front = words_of(rng.choice(('ORG', 'JMP', 'MOV A,', 'TIMER', 'JNZ R4,', 'MOV R1R0,', 'SOUND', 'JA2')))
    names = {} if front == ['ORG'] else program.values()
    tokens = rng.choice(([name], [*operand(rng, rng.randrange(16), names), rng.choice('+-'), name], ['(', name, ')', '-', '1']))
    line = Line(front + tokens, maybe_label(rng, program))
    program.insert(rng, line)
    program.troubles.append((LABELS, line, 'a label missing'))


def labelled(rng, program):
    """A line with a label that no other trouble is about; a new one if there is none."""
    rows = [line for line in program.lines if line.label and line.address is not None and line.label not in program.involved]
    line = rng.choice(rows) if rows else plain_line(rng, fresh(rng, program.taken))
    if not rows:
        program.insert(rng, line)
    program.involved.add(line.label)
    return line


def add_not_above(rng, program):
    """ORG with a label of a line below, or with its own."""
    below = labelled(rng, program) if rng.random() < 0.7 else None
    name = below.label if below else fresh(rng, program.taken)
    program.tags.add('ORG with a label below' if below else 'ORG with its own label')
    line = Line(['ORG', name] + rng.choice(([], ['+', '1'], ['-', name])), None if below else name)
    program.insert(rng, line, before=below)
    program.troubles.append((LABELS, line, 'a label not above its ORG'))


def add_again(rng, program):
    """A second line with a label: above the first one or below it, at times an ORG."""
    first = labelled(rng, program)
    line = plain_line(rng, first.label)
    if rng.random() < 0.3:
        line.tokens = ['ORG', numeral(rng, rng.randrange(MASK))]
    program.insert(rng, line)
    program.troubles.append((LABELS, max(first, line, key=program.number), 'a label defined again'))


# ---------------------------------------------------------------------------
# Places and values
# ---------------------------------------------------------------------------

OUTSIDE = [MASK, MASK, MASK + 1, 5000, LARGEST, -1, -1, -2, -MASK, -LARGEST, 2 * LARGEST, 65536, 65536 + 16, -65536]


def add_bad_org(rng, program):
    value = rng.choice(OUTSIDE)
    line = Line(['ORG', *operand(rng, value, {})], maybe_label(rng, program))
    program.insert(rng, line)
    program.tags.add(f'ORG {value}')
    program.troubles.append((PLACES, line, 'ORG out of range'))


def add_past_end(rng, program):
    """Bytes past the last one, which the program does not write."""
    one = Line(words_of(rng.choice(('NOP', 'INC A', 'MOV A,5'))))
    two = Line(words_of(rng.choice(('JMP 0', 'HALT', 'ADD A,5', 'MOV R1R0,5', 'SOUND 3', 'TIMER 9'))), maybe_label(rng, program))
    lines, what = rng.choice((([Line(['ORG', '4095']), two], 'two bytes at FFF'),
                              ([Line(['ORG', '4095']), one, Line([]), plain_line(rng)], 'a byte after FFF'),
                              ([Line(['ORG', '4094']), two, plain_line(rng)], 'a byte after FFF')))
    program.insert(rng, *lines)
    program.tags.add(what)
    program.troubles.append((PLACES, lines[-1], 'a byte past the end'))


def add_twice(rng, program):
    """ORG back to the last byte of a line above, or with two bytes to the one before it."""
    lines = with_code(program)
    written = {at for line in lines for at in range(line.address, line.address + line.code.length)}
    first_of_row = [line for line in lines if line.address and line.address - 1 not in written]
    if first_of_row and rng.random() < 0.6:
        above, second, what = rng.choice(first_of_row), words_of('JMP 0'), 'the second byte on a written one'
        where = above.address - 1
    else:
        above, second, what = rng.choice(lines), ['NOP'], 'a byte on the last one of a line'
        where = above.address + above.code.length - 1
    lines = [Line(['ORG', numeral(rng, where)]), Line(second, maybe_label(rng, program))]
    program.insert(rng, *lines, after=program.number(above))
    program.tags.add(what)
    program.troubles.append((PLACES, lines[1], 'a byte written twice'))


def spoil(rng, program, lines, what, value_of):
    """Another value for one of these lines that has no trouble yet."""
    lines = [line for line in lines if not any(line is other for _, other, _ in program.troubles)]
    if lines:
        line = rng.choice(lines)
        set_operand(rng, line, line.tokens[:line.front], value_of(line), program.values())
        program.troubles.append((VALUES, line, what))


def over_limit(rng, limit):
    return rng.choice((limit + 1, limit + 2, -1, -limit - 1, LARGEST, 65536, 65536 + limit, 2 * (limit + 1), -LARGEST))


def set_bad_value(rng, program):
    spoil(rng, program, with_value(program), 'a value outside its field', lambda line: over_limit(rng, limit_of(line.code)))


def set_bad_branch(rng, program):
    spoil(rng, program, with_branch(program), 'a branch to the other half',
          lambda line: ((line.address + 2) % MASK & 0x800 ^ 0x800) + rng.randrange(0x800))


DAMAGES = {CANNOT_READ: [add_unreadable], LABELS: [add_missing, add_not_above, add_again],
           PLACES: [add_bad_org, add_past_end, add_twice], VALUES: [set_bad_value, set_bad_branch]}


def several(rng):
    """A program with two to four troubles, so that their order decides."""
    program = base(rng)
    for rank in rng.choices(range(4), weights=(2, 3, 3, 3), k=rng.choice((2, 3, 4))):
        rng.choice(DAMAGES[rank])(rng, program)
    return program


# ---------------------------------------------------------------------------
# Damage by chance
# ---------------------------------------------------------------------------

def other_bytes(rng, text):
    """A few bytes replaced, put in or left out."""
    text = bytearray(text)
    for _ in range(rng.choice((1, 1, 2, 4))):
        at = rng.randrange(len(text) + 1)
        some = bytes([rng.choice(b' ,:[]+-()ARHFJMOV0123459\n')]) if rng.random() < 0.9 else rng.randbytes(1)
        text[at:at + rng.randrange(2)] = rng.choice((some, b''))
    return bytes(text)


def other_lines(rng, text):
    """Lines left out, doubled, exchanged."""
    rows = text.split(b'\n')
    for _ in range(rng.choice((1, 2, 4))):
        one, two = rng.randrange(len(rows)), rng.randrange(len(rows))
        kind = rng.randrange(3)
        if kind == 0:
            rows[one], rows[two] = rows[two], rows[one]
        elif kind == 1:
            rows.insert(one, rows[two])
        elif len(rows) > 1:
            del rows[one]
    return b'\n'.join(rows)


VOCABULARY = [*sorted(FIXED), *'ABCXY', 'R5', 'JA4', '0', '1', '15', '16', '0FFH', '100H', '4095', '4096', *',,,[]:++--(()']


def other_tokens(rng, text):
    """Some words or signs are others, or exchanged."""
    tokens = re.findall(rb'[A-Z0-9]+|[^A-Z0-9]', text)
    for _ in range(rng.choice((1, 1, 2))):
        one, two = rng.randrange(len(tokens)), rng.randrange(len(tokens))
        if rng.random() < 0.5:
            tokens[one], tokens[two] = tokens[two], tokens[one]
        else:
            tokens[one] = rng.choice(VOCABULARY).encode()
    return b''.join(tokens)


def nearly_a_line(rng):
    """Two labels, and a line of the summary with a token that is another, or none."""
    tokens = rng.choice(list(FORMS)).replace('#', rng.choice(('5', 'X', '(X-Y)', '1+2'))).split()
    at = rng.randrange(len(tokens))
    tokens[at:at + rng.choice((0, 1, 1))] = rng.choice(([rng.choice(VOCABULARY)], [rng.choice(VOCABULARY)], []))
    return ('X: NOP\nY: NOP\n' + spaced(rng, tokens, 'wide')).encode()


def any_tokens(rng):
    return spaced(rng, rng.choices(VOCABULARY, k=rng.randrange(1, 9)), 'wide').encode()


# ---------------------------------------------------------------------------
# Limits
# ---------------------------------------------------------------------------

def alone(rng, at, code, value):
    """ORG and one instruction with a value of its own choice."""
    line = Line([], address=at, code=code)
    runs = isa_table.field_runs(code.pattern)
    fields = [rng.randrange(isa_table.field_limit(letter, width) + 1) for letter, _, width in runs]
    set_instruction(rng, line, tuple(fields), {})
    fits = 0 <= value <= limit_of(code) and (code.pattern.count('a') != 11 or not (value ^ (at + 2) % MASK) & 0x800)
    if fits:
        data = [n for n, (letter, _, width) in enumerate(runs) if letter in 'ad' or (letter, width) == ('n', 4)]
        for place, n in enumerate(data):
            fields[n] = value >> 4 * place & ((1 << runs[n][2]) - 1)
        line.instruction = isa_table.Instruction(code, tuple(fields))
    set_operand(rng, line, line.tokens[:line.front], value, {})
    org = Line([], address=at)
    set_operand(rng, org, ['ORG'], at, {})
    program = Program([org, line], set())
    if not fits:
        program.troubles.append((VALUES, line, 'a value at a limit'))
    return program


# At 7FEh and 7FFh a branch is moved to the upper half, at FFEh to address 0.
BRANCH_EDGES = (0x7FD, 0x7FE, 0x7FF, 0xFFD, 0xFFE)


def at_limits(rng):
    """Each line with an operand at the limits of its field; each branch where bit 11 changes."""
    for code in isa_table.CODES:
        limit = limit_of(code)
        if limit is None:
            continue
        branch = code.pattern.count('a') == 11
        for value in (0, limit, limit + 1, -1):
            at = 0x7FE if branch and value == limit else 0
            yield case(rng, f'{code.mnemonic} of {value}', alone(rng, at, code, value), 'a value at a limit')
        for at, target in itertools.product(BRANCH_EDGES, (0x010, 0x7FF, 0x800, 0xFFF)) if branch else ():
            yield case(rng, f'{code.mnemonic} at {at:03X} to {target:03X}', alone(rng, at, code, target))


def filled(text, size, front):
    """The text with blank lines and spaces before it or after it, to that size."""
    more = (b' ' * 99 + b'\n') * (size // 100 + 1)
    room = size - len(text) - 1
    return more[:room] + b'\n' + text if front else text + b'\n' + more[:room]


def accepted_at(at, code):
    """The answer with these bytes at an address and no others."""
    return 0, 0, (bytes([UNWRITTEN]) * at + bytes.fromhex(code)).ljust(MASK, bytes([UNWRITTEN]))


def refused(number, line):
    return number, line, None


def as_many_labels_as_fit():
    """Lines of NOP with the shortest labels, but for two bytes, then of ORG, with some room left; and one label more."""
    names = [name for size in (1, 2, 3) for name in map(''.join, itertools.product(LETTERS + DIGITS, repeat=size))
             if name[0] in LETTERS and name not in FIXED]
    rows = [f'{name}:{"NOP" if at < MASK - 2 else "ORG 0"}\n' for at, name in enumerate(names[:-1])]
    sizes = itertools.accumulate(map(len, rows))
    return ''.join(row for row, size in zip(rows, sizes) if size < LONGEST - 50).encode(), names[-1].encode()


def by_hand():
    """Name, text and answer."""
    empty = accepted_at(0, '')
    yield 'no file', None, empty
    for text in (b'', b'\n', b' ', b'   \n \n\n  '):
        yield f'nothing, as {text}', text, empty
    yield 'the longest text, spaces', b' ' * LONGEST, empty
    yield 'the longest text, LF', b'\n' * LONGEST, empty
    jump, found = b'L: JMP L', accepted_at(0, 'E000')
    for front in (False, True):
        for size in (LONGEST - 1, LONGEST):
            yield f'a text of {size}, {front}', filled(jump, size, front), found
        for size in (LONGEST + 1, LONGEST + 2, LONGEST + 100, 2 * LONGEST, 3 * LONGEST):
            yield f'a text of {size}, {front}', filled(jump, size, front), refused(12, 1)
    yield 'too long and unreadable', filled(b'NOP\nNOP\n?', LONGEST + 1, False), refused(12, 1)
    yield 'too long by its last LF', filled(jump, LONGEST, True) + b'\n', refused(12, 1)
    yield 'the last byte of all is bad', b'\n' * (LONGEST - 1) + b'?', refused(12, LONGEST)
    yield 'the last line of all', b'\n' * (LONGEST - 5) + b'JMP X', refused(14, LONGEST - 4)
    yield 'ORG in a line far down', b'\n' * 60000 + b'ORG 4096\n', refused(13, 60001)
    yield 'a value in a line far down', b'\n' * 300 + b'MOV A,16', refused(13, 301)
    yield 'a branch in a line far down', b'\n' * 4999 + b'JC 800H\n\n', refused(13, 5000)
    # Every byte of the mask, and one more.
    nops, ins = b'NOP\n' * MASK, b'INC A\n' * MASK
    yield 'every byte', ins, (0, 0, b'\x31' * MASK)
    yield 'every byte and one', ins + b'INC A', refused(13, MASK + 1)
    yield 'every byte, and NOP at 0 again', nops + b'ORG 0\nNOP', refused(13, MASK + 2)
    yield 'every byte, and ORG', nops + b'X: ORG 4095', empty
    yield 'two bytes each', b'JMP 123H\n' * (MASK // 2), (0, 0, b'\xE1\x23' * (MASK // 2))
    yield 'two bytes each and one', b'JMP 123H\n' * (MASK // 2) + b'JMP 0', refused(13, MASK // 2 + 1)
    # Labels: many, long, and alike but for the end.
    many = b''.join(b'L%d:NOP\n' % k for k in range(MASK - 1))
    yield 'a label a byte', many + b'L4095:NOP', empty
    yield 'a label a byte, the last one again', many + b'L0:NOP', refused(14, MASK)
    far = b''.join(b'L%d:ORG %d\n' % (k, k) for k in range(2000))
    uses = b'+'.join(b'L%d-L%d' % (k + 1, k) for k in range(0, 1998, 2))
    yield 'a sum of many labels', far + b'ORG 0\nJMP ' + uses + b'-L1900', refused(13, 2002)
    yield 'a sum of many labels that fits', far + b'ORG 0\nJMP ' + uses, accepted_at(0, 'E3E7')
    body, last = as_many_labels_as_fit()
    yield 'as many labels as fit', body + last + b':ORG 5\nORG 4094\nJMP ' + last, accepted_at(4094, 'E005')
    yield 'as many labels as fit, the first one again', body + body[:body.index(b'\n')], refused(14, body.count(b'\n') + 1)
    yield 'as many lines of ORG as fit', b'ORG 0\n' * (LONGEST // 6), empty
    long, longer = b'A' * 20000 + b'0', b'A' * 20000 + b'1'
    yield 'labels alike but for the end', long + b': INC A\n' + longer + b': JMP ' + longer, accepted_at(0, '31E001')
    yield 'a label longer than another', b'NOP\n' + long + b': NOP\nJMP ' + long + b'0', refused(14, 3)
    # Numbers and operands of great length.
    yield 'zeros', b'JMP ' + b'0' * 65000 + b'5', accepted_at(0, 'E005')
    yield 'zeros of a hexadecimal', b'JMP ' + b'0' * 65000 + b'5H', accepted_at(0, 'E005')
    yield 'digits', b'JMP ' + b'1' * 65000, refused(12, 1)
    yield 'a long sum', b'JMP ' + b'1+' * 4094 + b'1', accepted_at(0, 'EFFF')
    yield 'a long sum, one too many', b'JMP ' + b'1+' * 4095 + b'1', refused(13, 1)
    plus, minus = b'65535+' * 5400 + b'5', b'-65535' * 5400
    yield 'a sum of great values', b'JMP ' + plus + minus, accepted_at(0, 'E005')
    yield 'a sum far below', b'JMP 0' + minus + b'+' + plus, accepted_at(0, 'E005')
    yield 'a sum of 65,536 more', b'MOV A,65535+1', refused(13, 1)
    yield 'parentheses side by side', b'JMP ' + b'(1)+' * 4000 + b'95', accepted_at(0, 'EFFF')
    yield 'parentheses 16 deep, side by side', b'JMP ' + b'+'.join([b'(' * 16 + b'1' + b')' * 16] * 1000), accepted_at(0, 'E3E8')
    yield 'one of them 17 deep', b'JMP ' + b'+'.join([b'(' * 16 + b'1' + b')' * 16] * 1000 + [b'(' * 17 + b'1' + b')' * 17]), refused(12, 1)
    yield 'parentheses that never close', b'NOP\nJMP ' + b'(' * 60000, refused(12, 2)
    yield 'parentheses that never open', b'NOP\nJMP 1' + b')' * 60000, refused(12, 2)
    yield 'very deep', b'JMP ' + b'(' * 30000 + b'1' + b')' * 30000, refused(12, 1)
    yield 'one line of spaces', b' ' * 30000 + b'INC' + b' ' * 30000 + b'A', accepted_at(0, '31')
    # CR LF.
    yield 'CR before LF', b'NOP\r\nNOP\r\n', refused(12, 1)
    yield 'CR alone', b'NOP\n\r\n', refused(12, 2)


# ---------------------------------------------------------------------------
# All
# ---------------------------------------------------------------------------

def damaged(rng, name, damage, count):
    for k in range(count):
        program = base(rng)
        damage(rng, program)
        yield case(rng, f'{name} {k}', program)


def fixed_words(rng):
    """Each as a label, in the first line or further on, and as an operand."""
    for word in sorted(FIXED):
        for tokens, what in (([word, ':', 'NOP'], 'as label'), (['JMP', word], 'as operand')):
            program = base(rng)
            line = Line(tokens)
            program.insert(rng, line)
            program.troubles.append((CANNOT_READ, line, f'{word} {what}'))
            yield case(rng, f'{word} {what}', program)


def single_bytes(rng):
    """Each byte without a meaning, alone in a line."""
    for byte in MEANINGLESS:
        program = base(rng)
        line = Line([], raw=bytes([byte]))
        program.insert(rng, line)
        program.troubles.append((CANNOT_READ, line, 'a byte alone'))
        yield case(rng, f'byte {byte}', program)


def cases():
    rng = random.Random(1134)
    for name, text, answer in by_hand():
        yield Case(name, text, answer, frozenset({f'a text of {len(text or b"")}'} & {f'a text of {LONGEST}'}))
    for k in range(600):
        yield case(rng, f'program {k}', make_program(rng))
    for depth in range(DEEPEST + 1):
        for k in range(25):
            yield case(rng, f'{depth} deep {k}', make_program(rng, 3, depth=depth))
    for k in range(40):
        yield case(rng, f'long sums {k}', make_program(rng, 3, terms=rng.choice((100, 200))))
    yield from at_limits(rng)
    for what in WRONG:
        yield from damaged(rng, what, lambda rng, program, what=what: add_unreadable(rng, program, what), 12)
    yield from fixed_words(rng)
    yield from single_bytes(rng)
    for damage in itertools.chain.from_iterable(list(DAMAGES.values())[1:]):
        yield from damaged(rng, damage.__name__, damage, 125)
    for k in range(500):
        yield case(rng, f'several {k}', several(rng))
    for k in range(450):
        edit = rng.choice((other_bytes, other_lines, other_tokens))
        yield Case(f'{edit.__name__} {k}', edit(rng, text_of(rng, base(rng))), None)
    for k in range(300):
        yield Case(f'nearly a line {k}', nearly_a_line(rng), None, frozenset({'nearly a line'}))
    for k in range(100):
        yield Case(f'tokens {k}', any_tokens(rng), None)
    for k in range(50):
        yield Case(f'bytes {k}', rng.randbytes(rng.randrange(40)), None)


# ---------------------------------------------------------------------------
# What was met
# ---------------------------------------------------------------------------

FAR = (255, 4096, LONGEST - 1)


def note(met, one, why, line):
    """Counts what a case met: the answer, what the text shows, and both together."""
    answer = why[1] if why else 'accepted'
    met.update(['texts', answer, *(f'any: {tag}' for tag in one.tags), *(f'{answer}: {tag}' for tag in one.tags)])
    met['planned'] += one.planned is not None
    met.update(f'refused past line {least}' for least in FAR if line > least)


def least():
    """What must be met, and how often at least."""
    def of(why, *tags):
        return [f'{why[1] if why else "accepted"}: {tag}' for tag in tags]

    ranks = [*NAMES.values()]
    wanted = [
        (3000, ['texts', 'planned']),
        (1000, ['accepted', UNREADABLE[1]]),
        (100, [why[1] for why in (MISSING, NOT_ABOVE, AGAIN, BAD_ORG, PAST_END, TWICE, BAD_VALUE, BAD_BRANCH)]),
        (10, [TOO_LONG[1]]),
        (100, of(None, *LOOKS, 'negative on the way')),
        (20, of(None, 'a sum of 100 terms', 'number 65535', 'number FFFFH', 'ORG 4095', 'a byte at FFF')),
        (10, of(None, *(f'parentheses {depth} deep' for depth in range(DEEPEST + 1)))),
        (5, of(None, *('form ' + shape.replace(' #', '') for shape in FORMS))),
        (5, of(None, *(f'label {name}' for name in NEAR))),
        (3, of(None, f'a text of {LONGEST}')),
        (10, of(UNREADABLE, *WRONG)),
        (1, of(UNREADABLE, *(f'{word} as {what}' for word in FIXED for what in ('label', 'operand')))),
        (200, of(UNREADABLE, 'a byte alone')),
        (40, of(NOT_ABOVE, 'ORG with its own label', 'ORG with a label below')),
        (10, of(BAD_ORG, 'ORG 4096', 'ORG -1')),
        (30, of(PAST_END, 'two bytes at FFF', 'a byte after FFF')),
        (40, of(TWICE, 'the second byte on a written one', 'a byte on the last one of a line')),
        (10, of(None, *(f'a branch at {at:03X}' for at in BRANCH_EDGES))),
        (10, of(BAD_BRANCH, *(f'a branch at {at:03X}' for at in BRANCH_EDGES))),
        (20, of(None, 'a value at a limit') + of(BAD_VALUE, 'a value at a limit')),
        (30, of(UNREADABLE, 'nearly a line') + of(None, 'nearly a line')),
        (20, [f'any: {first} goes before an earlier {other}' for first, other in itertools.combinations(ranks, 2)]),
        (10, [f'any: {rank} and another further on' for rank in ranks]),
        (1, [f'refused past line {line}' for line in FAR]),
    ]
    return {name: count for count, names in wanted for name in names}


def too_few(met):
    """What was met less often than it must be."""
    return [f'{name} ({met[name]} of {count})' for name, count in least().items() if met[name] < count]


def main():
    met = collections.Counter()
    for one in cases():
        why, line, mask = assembler.examine(one.text or b'')
        if one.planned not in (None, (why[0] if why else 0, line, mask)):
            sys.exit(f'assembler_cases: {one.name}: planned {one.planned[:2]}, the model has {why} at line {line}')
        note(met, one, why, line)
    for name in least():
        print(f'{met[name]:6d}  {name}')
    if too_few(met):
        sys.exit(f'assembler_cases: too few of: {", ".join(too_few(met))}')


if __name__ == '__main__':
    main()
