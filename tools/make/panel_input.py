"""Masks and scripts for `panel`, written by name.

A program is a dict from addresses to lists of items. An item is a label (a string) or a tuple
of a mnemonic of isa_table.py and its fields in the order of the machine code; a label may stand
for an address. Where document 001 prints several codes for one line, the mnemonic has the
printed name: 'IN A,PM', 'JNZ R4,addr'.
"""

import paths  # noqa: F401
import isa_table
import reference

NOP = 0x3E


def named(code):
    return code.mnemonic.replace('Pi', code.name).replace('Rn', code.name) if code.name else code.mnemonic


CODES = {named(code): code for code in isa_table.CODES}


def write(mnemonic, *fields):
    """The bytes of one instruction."""
    code = isa_table.write(isa_table.Instruction(CODES[mnemonic], fields))
    assert isinstance(code, bytes), (mnemonic, fields)
    return code


def address_field(mnemonic, here, address):
    """JMP and CALL hold 12 bits; a conditional branch holds 11 and keeps bit 11 of the moved PC."""
    if CODES[mnemonic].pattern.count('a') == 12:
        return address
    assert (here + 2) % reference.MASK & 0x800 == address & 0x800, (mnemonic, here, address)
    return address & 0x7FF


def assemble(program, fill=NOP):
    """The mask of a program; the other bytes are `fill`."""
    labels, placed = {}, []
    for here, items in program.items():
        for item in items:
            if isinstance(item, str):
                labels[item] = here
            else:
                placed.append((here, item))
                here += CODES[item[0]].length
    image = bytearray([fill] * reference.MASK)
    taken = set()
    for here, (mnemonic, *fields) in placed:
        fields = [address_field(mnemonic, here, labels[field]) if isinstance(field, str) else field
                  for field in fields]
        for k, byte in enumerate(write(mnemonic, *fields)):
            at = (here + k) % reference.MASK
            assert at not in taken, f'two codes at {at:03x}'
            taken.add(at)
            image[at] = byte
    return bytes(image)


# 'Script records are little-endian: two-byte payload length, two-byte kind, payload'.

def two(number):
    return number.to_bytes(2, 'little')


def record(kind, payload=b'', length=None):
    """A record; `length` is a wrong one."""
    return two(len(payload) if length is None else length) + two(kind) + bytes(payload)


def power_on(rate=2, commons=4, wake_pm=0, wake_ps=0, wake_pp=0, fill=0):
    return record(1, [rate, commons, wake_pm, wake_ps, wake_pp, fill])


def run(steps):
    return record(2, two(steps))


def pins(pm, ps, pp):
    return record(3, [pm, ps, pp])


def int_pin(level):
    return record(4, [level])


def tmclk(edges):
    return record(5, two(edges))


def res():
    return record(6)
