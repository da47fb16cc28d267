"""Finds a list of the 256 lengths or cycles by first byte: document 02, wish 3, wants none for a linker to place.

    python3 tools/gate/find_list.py FILE..           archives and object files: every section that a linker places; programs: their sections
    python3 tools/gate/find_list.py --memory FILE..  bytes as they are, such as a stack that a call left
    python3 tools/gate/find_list.py --forms          shows that it finds such a list in each form, and nothing else

A list has entries in a row, of one, two, four or eight bytes, that are equal where lengths are, or cycles, or both, and different
where these differ: so packed and scaled entries are found, and a table of jumps by length. It is found by the part from 36h to 70h,
which every list of 256 entries has, and also one that leaves out the many alike at either end. Not found: entries of less than a
byte or of three, in another order, with something beside that varies otherwise, or the addresses in a linked program's table.
Exits 1 where one is found, or a form is not; 2 where there is nothing to read.
"""

import pathlib
import re
import struct
import subprocess
import sys
import tempfile

import paths  # noqa: F401
import isa_table

WIDTHS = (1, 2, 4, 8)
KINDS = {
    'lengths': [length for length, _ in isa_table.LENGTH_CYCLES],
    'cycles': [cycles for _, cycles in isa_table.LENGTH_CYCLES],
    'lengths and cycles': isa_table.LENGTH_CYCLES,
}
PART = range(0x36, 0x71)      # from the entry after 35h to the first of MOV A,XH


# ---------------------------------------------------------------------------
# Entries in a row
# ---------------------------------------------------------------------------

def expression(values, width):
    """Matches entries of a width that are equal where these values are, and different where they differ."""
    groups, text = {}, ''
    for value in values:
        if value in groups:
            text += r'(?:\%d)' % groups[value]
        else:
            text += ''.join(r'(?!\%d)' % group for group in groups.values()) + '(.{%d})' % width
            groups[value] = len(groups) + 1
    return re.compile(text.encode(), re.S)


EXPRESSIONS = [(kind, width, expression([values[first] for first in PART], width)) for kind, values in KINDS.items() for width in WIDTHS]


def lists_in(content):
    """Each list in these bytes, as (kind, width, offset)."""
    return [(kind, width, found.start()) for kind, width, search in EXPRESSIONS if (found := search.search(content))]


# ---------------------------------------------------------------------------
# Sections of ELF files and archives
# ---------------------------------------------------------------------------

ALLOC, NOBITS, RELA, OBJECT = 2, 8, 4, 1    # SHF_ALLOC, SHT_NOBITS, SHT_RELA, ET_REL
# R_X86_64_64, PC32, 32, 32S, PC16 and PC64: the bytes that each fills, and whether less its own place
FILLS = {1: (8, False), 2: (4, True), 10: (4, False), 11: (4, False), 13: (2, True), 24: (8, True)}


def sections(elf):
    """Name and bytes of each section that is placed. What a relocation fills in is a number for its target."""
    if elf[:6] != b'\x7fELF\x02\x01':
        raise ValueError('no little-endian ELF64 file')
    file_type, = struct.unpack_from('<H', elf, 0x10)
    table, = struct.unpack_from('<Q', elf, 0x28)
    size, count, names = struct.unpack_from('<HHH', elf, 0x3a)
    heads = [struct.unpack_from('<IIQQQQIIQQ', elf, table + size * k) for k in range(count)]
    text = elf[heads[names][4]:][:heads[names][5]]
    placed = {}
    for k, (name, kind, flags, _, offset, length, *_) in enumerate(heads):
        if flags & ALLOC and kind != NOBITS:
            placed[k] = text[name:text.index(b'\0', name)].decode(), bytearray(elf[offset:offset + length])
    targets = {}
    for _, kind, _, _, offset, length, _, section, *_ in heads:
        if file_type != OBJECT or kind != RELA or section not in placed:
            continue
        content = placed[section][1]
        for at, info, addend in struct.iter_unpack('<QQq', elf[offset:offset + length]):
            filled, less_place = FILLS.get(info & 0xffffffff, (0, False))
            if filled:
                # an entry of a table of jumps is its target less the table's place: the entry's own, and how far it stands in the table
                target = info, addend - at if less_place else addend
                content[at:at + filled] = (targets.setdefault(target, len(targets)) + 0x7f00).to_bytes(filled, 'little')
    return [(name, bytes(content)) for name, content in placed.values()]


def members(content):
    """Name and bytes of each object file of an archive; or the one file."""
    if not content.startswith(b'!<arch>\n'):
        return [('', content)]
    result, at = [], 8
    while at < len(content):
        name, size = content[at:at + 16].decode().rstrip(), int(content[at + 48:at + 58])
        if name not in ('/', '//'):
            result.append((name.rstrip('/'), content[at + 60:at + 60 + size]))
        at += 60 + size + size % 2
    return result


def found_in(path):
    """What is found in a file, a line each; and how many bytes were read."""
    lines, read = [], 0
    for member, elf in members(pathlib.Path(path).read_bytes()):
        for name, content in sections(elf):
            read += len(content)
            lines += [f'{path}: {member} {name}+{at:#x}: {kind}, entries of width {width}' for kind, width, at in lists_in(content)]
    return lines, read


# ---------------------------------------------------------------------------
# What it finds, and what not
# ---------------------------------------------------------------------------

DIRECTIVES = {1: '.byte', 2: '.short', 4: '.long', 8: '.quad'}


def data(entries, width, section='.rodata'):
    return f'.section {section}\n.byte 7, 7, 7\n' + ''.join(f'{DIRECTIVES[width]} {entry}\n' for entry in entries)


def forms():
    """Assembly of each form, and whether it holds a list."""
    lengths, cycles, both = KINDS['lengths'], KINDS['cycles'], KINDS['lengths and cycles']
    result = {}
    for width in WIDTHS:
        result[f'lengths, {width} bytes'] = data(lengths, width), True
        result[f'cycles, {width} bytes'] = data(cycles, width), True
        result[f'packed, {width} bytes'] = data([16 * length + c for length, c in both], width), True
    result['a length and cycles beside it'] = data([byte for pair in both for byte in pair], 1), True
    result['one less'] = data([max(length, 1) - 1 for length in lengths], 1), True
    result['in a section of its own'] = data(lengths, 1, '.rodata.cst'), True
    result['written to at start'] = data(lengths, 4, '.data.rel.ro'), True
    jumps = '.text\n' + ''.join(f'to_{n}: nop\n' for n in range(3)) + '.section .rodata\ntable:\n'
    result['jumps by length'] = jumps + ''.join(f'.long to_{length} - table\n' for length in lengths), True
    result['long jumps by length'] = jumps + ''.join(f'.quad to_{length} - table\n' for length in lengths), True
    result['addresses by cycles'] = jumps + ''.join(f'.quad to_{c}\n' for c in cycles), True
    result['short addresses by cycles'] = jumps + ''.join(f'.long to_{c}\n' for c in cycles), True
    result['47h with one byte'] = data([1 if first == 0x47 else length for first, length in enumerate(lengths)], 1), False
    result['128 of them'] = data(lengths[:128], 1), True
    result['where they differ'] = data(cycles[0x36:0x71], 4), True
    result['those of 40h to 4Fh'] = data(lengths[0x40:0x50], 1), False
    result['one entry for all'] = data([1] * 300, 1), False
    result['jumps by code'] = jumps + ''.join(f'.long to_{first % 3} - table\n' for first in range(256)), False
    return result


def try_forms():
    bad = 0
    for name, (assembly, there) in forms().items():
        with tempfile.TemporaryDirectory() as folder:
            source, made, archive = (pathlib.Path(folder) / f for f in ('form.s', 'form.o', 'libform.a'))
            source.write_text(assembly)
            subprocess.run(['gcc', '-c', '-o', made, source], check=True)
            subprocess.run(['ar', 'rc', archive, made], check=True)
            if bool(found_in(archive)[0]) != there:
                bad += 1
                print(f'find_list: {name}: {"not found" if there else "found, and is none"}')
    print(f'find_list: {len(forms())} forms, {bad} wrong')
    return bad


def main(words):
    memory = words[:1] == ['--memory']
    files = words[memory:]
    if words == ['--forms']:
        return 1 if try_forms() else 0
    if not files or any(word.startswith('--') for word in files):
        print(__doc__)
        return 2
    status = 0
    for path in files:
        if memory:
            content = pathlib.Path(path).read_bytes()
            lines, read = [f'{path}+{at:#x}: {kind}, entries of width {width}' for kind, width, at in lists_in(content)], len(content)
        else:
            lines, read = found_in(path)
        if not read:
            print(f'find_list: {path}: nothing to read')
            return 2
        for line in lines or [f'{path}: no list in {read} bytes']:
            print(f'find_list: {line}')
        status |= bool(lines)
    return status


if __name__ == '__main__':
    sys.exit(main(sys.argv[1:]))
