"""Cases of the checker: writes crates/checker_main/data/masks.bin and its expected output.

masks.bin is a little-endian two-byte count, then the masks. The output is what the
reference model's `checker` answers for the three refusals, for the 256 masks of one byte
throughout, and for the stored masks. Each case has two lines: its name with the answer,
and its marks: the first two, and each that is not the one two addresses before it.
"""

import random

from paths import ROOT
import isa_table
import reference
from reference import MASK
from stored import write_files

CRATE = ROOT / 'crates' / 'checker_main'
KEPT = bytes([255])         # what the mark bytes hold before the checker writes them

NOP, RET, RETI, EI, DI = 0x3E, 0x2E, 0x2F, 0x2C, 0x2D
JMP, CALL, JC, JZ = 0xE0, 0xF0, 0xC0, 0xB0
BRANCHES = [0x80, 0x88, 0x90, 0x98, 0xA0, 0xA8, 0xB0, 0xB8, 0xC0, 0xC8, 0xD0, 0xD8]

# First bytes by what they read as whatever follows, and unreadable ones.
PLAIN = [b for b in range(256) if isa_table.read(b, 0) and isa_table.read(b, 0).code.length == 1
         and b not in (RET, RETI, EI)]
BROKEN = [b for b in range(256) if not any(isa_table.read(b, s) for s in range(256))]


def to(first, target):
    """JMP or CALL with its 12 bits of target, a branch with its 11."""
    bits = 0xF if first >= JMP else 0x7
    return [first + (target >> 8 & bits), target & 255]


def mask(*parts, fill=NOP):
    """A mask of one byte with lists of bytes at addresses."""
    image = bytearray([fill] * MASK)
    for address, values in parts:
        for k, byte in enumerate(values):
            image[(address + k) % MASK] = byte
    return bytes(image)


# ---------------------------------------------------------------------------
# Masks by hand
# ---------------------------------------------------------------------------

def jumps_through_every_even_address(rng):
    """One chain of 2,048 JMPs that comes back to 0."""
    order = list(range(2, MASK, 2))
    rng.shuffle(order)
    order = [0] + order
    return mask(*((here, to(JMP, there)) for here, there in zip(order, order[1:] + [0])))


def by_hand(rng):
    yield mask()                                        # document 01's three examples
    yield mask((0, [0x40, 0x15]))
    yield mask((0, [0xF0, 0x10]))
    yield mask(fill=0x00)
    yield mask((0, to(JMP, 0)))                         # a jump to itself
    # A chain of two-byte codes through every address: the one-byte code at FFEh turns it to
    # the odd ones.
    yield mask((0xFFE, [NOP]), fill=0x47)
    yield jumps_through_every_even_address(rng)
    yield mask(fill=EI)
    # Every level at every address: the branch at 0EFh has CALL's first byte as its second,
    # and goes to both bytes of CALL.
    yield mask((0, [EI]), (0x0EF, [JC, 0xF0, 0x00]), fill=0x00)
    # Levels by themselves: no EI; EI after the vectors; EI in a subroutine only; in a handler only.
    yield mask((0, to(JMP, 0x20)), (0x20, to(CALL, 0x30) + to(JMP, 0x22)), (0x30, [RET]))
    yield mask((0, to(JMP, 0x20)), (4, [RETI]), (8, [RETI]), (0x20, [EI] + to(JMP, 0x21)))
    yield mask((0, to(CALL, 0x30) + to(JMP, 2)), (4, to(JMP, 0x40)), (8, [RETI]),
               (0x30, [EI, RET]), (0x40, [RETI]))
    yield mask((0, [DI] + to(JMP, 1)), (4, [EI, RETI]), (8, [EI, RETI]))
    # RET in level 2 and RETI in level 1 are no fault; RET in level 0 is, and so is CALL in 1 or 2.
    yield mask((0, [EI] + to(CALL, 0x30) + to(JMP, 3)), (4 + 1, [RET]), (8, [RET]), (0x30, [RETI]))
    yield mask((0, to(JMP, 0x700)), (0x700, [RET]))
    yield mask((0, to(JMP, 0x700)), (0x700, [RETI]))
    yield mask((0, [EI] + to(JMP, 0)), (4, [RETI]), (8, to(CALL, 0x100)), (0x100, [RET]))
    yield mask((0, to(CALL, 0x30) + to(JMP, 2)), (0x30, to(CALL, 0x40)), (0x40, [RET]))
    # Two forbidden pairs: the lower address wins over the lower level, and the lower level
    # at one address.
    yield mask((0, to(CALL, 0x30) + to(JMP, 0x40)), (0x30, to(CALL, 0x30)), (0x40, [0x35]))
    for after in (0x10, 0x23):
        yield mask((0, to(JMP, 0x20)), (0x10, [0x35]), (0x20, [EI] + to(CALL, 0x10) + to(JMP, after)))
    # Bit 11 of a branch at 7FDh, 7FEh, 7FFh, FFDh, FFEh and FFFh, and JMP and CALL over the end.
    ends = [(0x010, to(JMP, 0x010)), (0x810, to(JMP, 0x810))]
    for at in (0x7FD, 0x7FE, 0x7FF):
        yield mask((0, to(JMP, at)), (at, to(JZ, 0x010) + to(JMP, at)), *ends)
    for at in (0xFFD, 0xFFE):
        yield mask((0, to(JMP, at)), (at, to(JZ, 0x010)), *ends)
    yield mask((0, [0x10] + to(JMP, 0xFFF)), (0xFFF, [JZ]), *ends)
    yield mask((0, [0x10, NOP] + to(JMP, 0xFFF)), (0xFFF, [JMP + 3]))
    yield mask((0, [0x10, NOP] + to(JMP, 0xFFF)), (0xFFF, [CALL + 3]), (0x310, [RET]))
    # A code that cannot be read by its second byte, at the end and over it; HALT and no HALT.
    yield mask((0, [0x12]), (0xFFF, [0x40]))
    yield mask((0, [0x02]), (0xFFF, [0x40]))
    yield mask((0, [0x37, 0x3E, 0x37, 0x3F]))
    # Each byte in turn, as codes and as targets.
    yield bytes(range(256)) * 16
    yield bytes(reversed(range(256))) * 16
    yield bytes(k * 7 % 256 for k in range(MASK))


# ---------------------------------------------------------------------------
# Masks by a program of their own
# ---------------------------------------------------------------------------

def body(rng, start, size, calls, slip):
    """Codes from `start` on, `size` bytes: plain ones, branches inside, and calls."""
    out = []
    while len(out) < size:
        left, kind = size - len(out), rng.randrange(10)
        if left > 1 and kind == 0:
            out += to(rng.choice(BRANCHES), start + rng.randrange(size + 1))
        elif left > 1 and kind == 1 and calls:
            out += to(CALL, rng.choice(calls))
        elif left > 1 and kind == 2:
            out += [rng.choice([0x40, 0x45, 0x53, 0x6A]), rng.randrange(16)]
        else:
            out.append(rng.choice(PLAIN))
    if slip:
        at = rng.randrange(size)
        out[at:at + 1] = [slip]
    return out[:size]


def structured(rng, slip):
    """EI, a main loop with subroutines and handlers. A slip is one wrong byte somewhere."""
    routines = rng.sample(range(0x200, 0x700, 0x80), 4)
    places = ['main', 'routine', 'handler']
    bad = rng.choice(places) if slip else None
    main = 0x10 + rng.randrange(0x40)
    size = rng.randrange(40, 120)
    parts = [(0, to(JMP, main)), (4, to(JMP, 0x780)), (8, to(JMP, 0x7C0)),
             (main, [EI] + body(rng, main + 1, size, routines, slip if bad == 'main' else None)
              + to(JMP, main))]
    for k, routine in enumerate(routines):
        size = rng.randrange(10, 100)
        wrong = slip if bad == 'routine' and k == 0 else None
        parts.append((routine, body(rng, routine, size, [], wrong) + [RET]))
    for handler in (0x780, 0x7C0):
        size = rng.randrange(10, 40)
        wrong = slip if bad == 'handler' else None
        parts.append((handler, body(rng, handler, size, [], wrong) + [RETI]))
    return mask(*parts, fill=0x35)


def random_mask(rng):
    return bytes(rng.randrange(256) for _ in range(MASK))


def random_codes(rng):
    """Codes in a row, few of which end a chain."""
    out = []
    while len(out) < MASK:
        kind = rng.randrange(80)
        if kind < 16:
            out += to(rng.choice(BRANCHES), rng.randrange(MASK))
        elif kind < 18:
            out += to(rng.choice([JMP, CALL]), rng.randrange(MASK))
        elif kind == 18:
            out.append(rng.choice([RET, RETI, EI, rng.choice(BROKEN)]))
        else:
            out.append(rng.choice(PLAIN))
    return bytes(out[:MASK])


def masks():
    rng = random.Random(1130)
    result = list(by_hand(rng))
    for slip in (None, None, None, None, None, RET, CALL, BROKEN[0], RETI, JMP):
        result.append(structured(rng, slip))
    result += [random_mask(rng) for _ in range(6)]
    result += [random_codes(rng) for _ in range(6)]
    return result


# ---------------------------------------------------------------------------
# Expected output
# ---------------------------------------------------------------------------

def lines(name, program, marks):
    """The two lines of a case; refused marks stay as they are."""
    answer = reference.checker(program, marks)
    if isinstance(answer, isa_table.Refused):
        said = f'refused {answer.number}'
    else:
        marks, verdict = answer
        if verdict == 'passed':
            said = verdict
        else:
            said = 'fault {} address {:03x} level {}'.format(*verdict)
    told = [f' {a:03x}:{mark}' for a, mark in enumerate(marks) if a < 2 or marks[a - 2] != mark]
    return [f'{name} {said}', 'marks' + ''.join(told)]


def fixed_lines():
    """The cases before the stored ones: refusals 1 and 2, and both, and the 256 masks of one byte."""
    out = lines('short mask', mask()[:-1], KEPT * MASK)
    out += lines('long marks', mask(), KEPT * (MASK + 1))
    out += lines('short mask, long marks', mask()[:-1], KEPT * (MASK + 1))
    for byte in range(256):
        out += lines(f'all {byte:02x}', mask(fill=byte), KEPT * MASK)
    return out


def stored_lines(stored):
    return [line for number, one in enumerate(stored) for line in lines(number, one, KEPT * MASK)]


def masks_file(stored):
    return len(stored).to_bytes(2, 'little') + b''.join(stored)


def files():
    """All that is stored, as a dict from paths to bytes."""
    stored = masks()
    assert len(stored) <= 60 and all(len(one) == MASK for one in stored)
    out = fixed_lines() + stored_lines(stored)
    return {CRATE / 'data' / 'masks.bin': masks_file(stored),
            CRATE / 'stdout': ('\n'.join(out) + '\n').encode('ascii')}


if __name__ == '__main__':
    write_files(files())
