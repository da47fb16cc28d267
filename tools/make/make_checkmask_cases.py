"""Writes the stored input of `checkmask` and what it must print.

crates/checkmask has one mask: data/mask.bin and stdout. Each folder of tests/checkmask is one
more case: mask.bin and expected; a file `missing` says that mask.bin is left out. Every stored way
is the only shortest one, so that what is printed is decided. The lines below, with the bounds of
masks that pass, are typed by hand and held to the reference model.
"""

from paths import ROOT
import reference
import stored
from panel_input import assemble

CRATE = ROOT / 'crates' / 'checkmask'
CASES = ROOT / 'tests' / 'checkmask'

# ---------------------------------------------------------------------------
# Cases
# ---------------------------------------------------------------------------


def cases():
    """Name, mask (None is a missing file), the lines, and what the case guards."""
    yield ('passed', assemble({0: [('JMP addr', 0x000)]}),
           ['passed',
            'bound at 004 level 2: not reached',
            'bound at 008 level 2: not reached',
            'longest wait: not reached'], 'a jump to itself passes; no pair above main')
    yield 'refused-missing', None, ['refused 1'], 'a missing file is a mask of another length'
    yield 'refused-empty', b'', ['refused 1'], 'an empty file'
    yield 'refused-4095', bytes([0x35]) * 4095, ['refused 1'], 'a byte too few, though the first one would fail'
    yield 'refused-4097', bytes([0x35]) * 4097, ['refused 1'], 'a byte too many'
    yield ('unreadable', assemble({}, fill=0x35),
           ['fault 1 at 000 level 0',
            '000 main       35    cannot be read'], 'a way of one pair; no pattern fits, so one byte is shown')
    yield ('unreadable-second-byte', bytes.fromhex('3E4015').ljust(4096, b'\x3e'),
           ['fault 1 at 001 level 0',
            '000 main       3E    NOP',
            '001 main       40 15 cannot be read'], 'a second byte outside its pattern is shown')
    yield ('unreadable-over-the-end', bytes.fromhex('EFFF').ljust(4095, b'\x3e') + b'\x50',
           ['fault 1 at FFF level 0',
            '000 main       EF FF JMP 0FFFH',
            'FFF main       50 EF cannot be read'], 'the byte after FFFh is the one at 0')
    yield ('call-in-a-subroutine', assemble({0: [('CALL addr', 0x010)], 0x002: [('JMP addr', 0x002)], 0x010: [('INC A',), ('CALL addr', 0x123)]}),
           ['fault 2 at 011 level 1',
            '000 main       F0 10 CALL 010H',
            '010 subroutine 31    INC A',
            '011 subroutine F1 23 CALL 123H'], 'level 1')
    yield ('call-in-an-interrupt', assemble({0: [('JMP addr', 0x020)], 0x004: [('RETI',)], 0x008: [('ADD A,XH', 10), ('CALL addr', 0xF00)],
                                         0x020: [('EI',), ('JMP addr', 0x021)], 0xF00: [('RET',)]}),
           ['fault 2 at 00A level 2',
            '000 main       E0 20 JMP 020H',
            '020 main       2C    EI',
            '008 interrupt  40 0A ADD A,0AH',
            '00A interrupt  FF 00 CALL 0F00H'], 'level 2 by the vector at 8; an operand that would start with a letter')
    yield ('timer-vector', assemble({0: [('EI',), ('JMP addr', 0x001)], 0x004: [('JMP addr', 0x080)], 0x008: [('RETI',)], 0x080: [('CALL addr', 0x000)]}),
           ['fault 2 at 080 level 2',
            '000 main       2C    EI',
            '004 interrupt  E0 80 JMP 080H',
            '080 interrupt  F0 00 CALL 000H'], 'level 2 by the vector at 4')
    yield ('return-in-main', assemble({0: [('TIMER XXH', 0xF8), ('RETI',)]}),
           ['fault 3 at 002 level 0',
            '000 main       47 F8 TIMER 0F8H',
            '002 main       2F    RETI'], 'fault 3')
    yield ('branch-in-the-upper-half', assemble({0: [('JMP addr', 0x900)], 0x900: [('JC addr', 0x2BC), ('JMP addr', 0x902)], 0xABC: [('RET',)]}),
           ['fault 3 at ABC level 0',
            '000 main       E9 00 JMP 900H',
            '900 main       C2 BC JC 0ABCH',
            'ABC main       2E    RET'], 'a branch is shown with its whole target: bit 11 is the moved address\'s')
    yield ('shorter-by-a-branch', assemble({0: [('JNZ R4,addr', 0x100)], 0x100: [('RET',)]}),
           ['fault 3 at 100 level 0',
            '000 main       D9 00 JNZ R4,100H',
            '100 main       2E    RET'], 'a way of 256 pairs leads there too: depth first would list it')
    yield ('shorter-though-found-later', assemble({0: [('JZ A,addr', 0x040), ('JMP addr', 0x010)], 0x010: [('NOP',), ('NOP',), ('JMP addr', 0x080)],
                                               0x040: [('JMP addr', 0x050)], 0x050: [('JMP addr', 0x080)], 0x080: [('RETI',)]}),
           ['fault 3 at 080 level 0',
            '000 main       B0 40 JZ A,040H',
            '040 main       E0 50 JMP 050H',
            '050 main       E0 80 JMP 080H',
            '080 main       2F    RETI'], 'the way over 002, 010, 011, 012 is found first at each turn and is longer')
    yield ('lowest-not-nearest', assemble({0: [('JC addr', 0x300), ('NOP',), ('NOP',), ('RET',)], 0x300: [('RET',)]}),
           ['fault 3 at 004 level 0',
            '000 main       C3 00 JC 300H',
            '002 main       3E    NOP',
            '003 main       3E    NOP',
            '004 main       2E    RET'], 'the named pair is the lowest, not the nearest')
    yield from bounds()


def held(program, calls=(), first='EI'):
    """A mask with EI, or another code, and CALLs in main at 0C0h; both vectors return at once where the program has nothing there."""
    main = [(first,), 'main'] + [('CALL addr', target) for target in calls] + [('JMP addr', 'main')]
    return assemble({0: [('JMP addr', 0x0C0)], 0x004: [('RETI',)], 0x008: [('RETI',)], 0x0C0: main, **program})


def diamonds(count):
    """Branches with two sides each, READ and JMP or three NOPs; then a return."""
    sides = [[('JNC addr', f'nops {k}'), ('READ R4A',), ('JMP addr', f'end {k}'), f'nops {k}', ('NOP',), ('NOP',), ('NOP',), f'end {k}']
             for k in range(count)]
    return sum(sides, []) + [('RETI',)]


def bounds():
    """The same for masks that pass: READ and each two-byte code have 2 cycles, the others 1."""
    yield ('bound-returns-at-once', held({0x008: [('RET',)], 0x020: [('RET',)], 0xABC: [('RETI',)]}, (0x020, 0xABC)),
           ['passed',
            'bound at 004 level 2: 1',
            'bound at 008 level 2: 1',
            'bound at 020 level 1: 1',
            'bound at ABC level 1: 1',
            'longest wait: 1 at 004 level 2'], 'the return counts, RET and RETI, in both levels; four pairs are as long')
    yield ('bound-more-cycles-by-fewer-instructions', held({0x008: [('JC addr', 'nops'), ('READ R4A',), ('READ R4A',), ('RETI',),
                                                                    'nops', ('NOP',), ('NOP',), ('NOP',), ('RETI',)]}),
           ['passed',
            'bound at 004 level 2: 1',
            'bound at 008 level 2: 7',
            'longest wait: 7 at 008 level 2'], 'cycles are added up, neither instructions nor bytes; the longer side is not the taken one')
    yield ('bound-longer-when-taken', held({0x008: [('JNZ R1,addr', 'long'), ('RETI',), 'long', ('ADD A,XH', 5), ('RETI',)]}),
           ['passed',
            'bound at 004 level 2: 1',
            'bound at 008 level 2: 5',
            'longest wait: 5 at 008 level 2'], 'the longer side is the taken one')
    yield ('bound-ei-in-an-interrupt', held({0x004: [('EI',), ('RETI',)], 0x008: [('NOP',), ('EI',), ('RETI',)],
                                             0x020: [('EI',), ('DI',), ('EI',), ('RET',)]}, (0x020,), 'NOP'),
           ['passed',
            'bound at 004 level 2: 2',
            'bound at 008 level 2: 3',
            'bound at 020 level 1: 4',
            'longest wait: 4 at 020 level 1'], 'the vectors are reached by an EI above main, and not followed from there: no loop')
    yield ('bound-ei-before-a-vector', held({0x004: [('NOP',), ('NOP',), ('NOP',), ('EI',), ('READ MR0A',), ('RETI',)], 0x008: []}),
           ['passed',
            'bound at 004 level 2: 7',
            'bound at 008 level 2: 3',
            'longest wait: 7 at 004 level 2'], 'the address after EI is followed, though it is a vector too')
    yield ('bound-loop-in-an-interrupt', held({0x008: [('INC A',), ('JNZ A,addr', 0x008), ('RETI',)]}),
           ['passed',
            'bound at 004 level 2: 1',
            'bound at 008 level 2: no bound',
            'longest wait: no bound at 008 level 2'], 'a branch back, though the loop can be left')
    yield ('bound-loop-below-its-entry', held({0x004: [('RETI',), 'low', ('NOP',), ('JMP addr', 'high')],
                                               0x020: ['high', ('JC addr', 'low'), ('RET',)]}, (0x020,)),
           ['passed',
            'bound at 004 level 2: 1',
            'bound at 008 level 2: 1',
            'bound at 020 level 1: no bound',
            'longest wait: no bound at 005 level 1'], 'the first pair without a bound is neither a vector nor a target')
    yield ('bound-jump-to-itself', held({0xF00: ['here', ('JMP addr', 'here')]}, (0xF00,)),
           ['passed',
            'bound at 004 level 2: 1',
            'bound at 008 level 2: 1',
            'bound at F00 level 1: no bound',
            'longest wait: no bound at F00 level 1'], 'a loop of one pair; no bound is longer than any number')
    yield ('bound-branch-to-itself', held({0x004: ['here', ('JTMR addr', 'here'), ('RETI',)]}),
           ['passed',
            'bound at 004 level 2: no bound',
            'bound at 008 level 2: 1',
            'longest wait: no bound at 004 level 2'], 'JTMR clears TF, yet the rule asks for successors alone')
    yield ('bound-loop-by-the-untaken-side', held({0x020: [('JNC addr', 'back'), 'round', ('NOP',), ('JMP addr', 'round'), 'back', ('RET',)],
                                                   0x030: ['again', ('JC addr', 'out'), ('NOP',), ('JMP addr', 'again'), 'out', ('RET',)]},
                                                  (0x020, 0x030)),
           ['passed',
            'bound at 004 level 2: 1',
            'bound at 008 level 2: 1',
            'bound at 020 level 1: no bound',
            'bound at 030 level 1: no bound',
            'longest wait: no bound at 020 level 1'], 'the taken side returns')
    yield ('bound-loop-behind-a-return', held({0x004: [('JMP addr', 0x300)], 0x008: [('RETI',), 'dead', ('JMP addr', 'dead')],
                                               0x300: [('RETI',), ('HALT',), ('JMP addr', 0x300)]}),
           ['passed',
            'bound at 004 level 2: 3',
            'bound at 008 level 2: 1',
            'longest wait: 3 at 004 level 2'], 'a loop and a HALT that no chain reaches')
    yield ('bound-halt-in-a-subroutine', held({0x020: [('NOP',), ('HALT',), ('RET',)]}, (0x020, 0x023)),
           ['passed',
            'bound at 004 level 2: 1',
            'bound at 008 level 2: 1',
            'bound at 020 level 1: no bound',
            'bound at 023 level 1: 1',
            'longest wait: no bound at 020 level 1'], 'a HALT waits for an edge; after it there is a bound again')
    yield ('bound-halt-behind-a-branch', held({0x004: [('JNZ R4,addr', 'sleep'), ('RETI',)], 0x100: ['sleep', ('HALT',), ('RETI',)]}),
           ['passed',
            'bound at 004 level 2: no bound',
            'bound at 008 level 2: 1',
            'longest wait: no bound at 004 level 2'], 'the other side returns')
    yield ('bound-halt-in-main', held({}, first='HALT'),
           ['passed',
            'bound at 004 level 2: not reached',
            'bound at 008 level 2: not reached',
            'longest wait: not reached'], 'loops and HALT in main do not count; without EI the vectors are not reached')
    yield ('bound-no-interrupts', held({0x004: ['here', ('JMP addr', 'here')], 0x008: [('HALT',)], 0x020: [('TIMER XXH', 5), ('RET',)]},
                                       (0x020,), 'DI'),
           ['passed',
            'bound at 004 level 2: not reached',
            'bound at 008 level 2: not reached',
            'bound at 020 level 1: 3',
            'longest wait: 3 at 020 level 1'], 'what stands at vectors that are not reached does not count')
    yield ('bound-main-over-the-vectors', assemble({0: [('NOP',)], 0x010: [('CALL addr', 0x300), ('JMP addr', 0x000)], 0x300: [('RET',)]}),
           ['passed',
            'bound at 004 level 2: not reached',
            'bound at 008 level 2: not reached',
            'bound at 300 level 1: 1',
            'longest wait: 1 at 300 level 1'], 'the vectors are marked in main, which is not level 2')
    yield ('bound-shared-subroutine', held({0x030: [('NOP',), ('JMP addr', 0x041)], 0x040: [('NOP',), ('READF R4A',), ('RET',)],
                                            0x0E0: [('CALL addr', 0x050)], 0x050: [('RET',)]}, (0x040, 0x030, 0x040, 0x041, 0x040)),
           ['passed',
            'bound at 004 level 2: 1',
            'bound at 008 level 2: 1',
            'bound at 030 level 1: 6',
            'bound at 040 level 1: 4',
            'bound at 041 level 1: 3',
            'longest wait: 6 at 030 level 1'], 'three CALLs of an address give one line; a CALL that main does not reach gives none')
    yield ('bound-in-both-levels', held({0x008: [('READ R4A',), ('JMP addr', 0x040)], 0x040: [('NOP',), ('RETI',)]}, (0x040, 0x008)),
           ['passed',
            'bound at 004 level 2: 1',
            'bound at 008 level 2: 6',
            'bound at 008 level 1: 6',
            'bound at 040 level 1: 2',
            'longest wait: 6 at 008 level 1'], 'a vector that is called too: of one address the lower level is first')
    yield ('bound-tie', held({0x008: [('NOP',), ('RETI',)], 0x005: [('NOP',), ('RET',)], 0x020: [('NOP',), ('RET',)]}, (0x005, 0x020)),
           ['passed',
            'bound at 004 level 2: 1',
            'bound at 008 level 2: 2',
            'bound at 005 level 1: 2',
            'bound at 020 level 1: 2',
            'longest wait: 2 at 005 level 1'], 'of pairs that are as long the lowest address, though another line is first')
    yield ('bound-branch-with-bit-11', held({0x004: [('JMP addr', 0x7FD)], 0x7FD: [('NOP',), ('JZ A,addr', 0x010), ('RETI',)],
                                             0x008: [('JMP addr', 0xFFC)], 0xFFC: [('NOP',), ('JZ A,addr', 0x010), ('RETI',)],
                                             0x010: [('RETI',)], 0x810: [('READ R4A',), ('READ R4A',), ('RETI',)]}),
           ['passed',
            'bound at 004 level 2: 10',
            'bound at 008 level 2: 10',
            'longest wait: 10 at 004 level 2'], 'bit 11 is the moved address\'s: both branches go to 810, and not to 010')
    yield ('bound-over-the-end', assemble({0: [('JMP addr', 0x02E)], 0x004: [('RETI',)], 0x008: [('JMP addr', 0xFFF)],
                                           0x02E: [('EI',), ('JMP addr', 0x02F)], 0x0E0: [('READ R4A',), ('RETI',)]})[:-1] + b'\xC0',
           ['passed',
            'bound at 004 level 2: 1',
            'bound at 008 level 2: 7',
            'longest wait: 7 at 008 level 2'], 'JC 0E0H at FFF has its second byte at 000 and goes on at 001, where 2E is a RET')
    yield ('bound-round-the-end', assemble({0: [('EI',)]}),
           ['passed',
            'bound at 004 level 2: no bound',
            'bound at 008 level 2: no bound',
            'longest wait: no bound at 000 level 2'], 'the interrupt runs over the end into main, round and round')
    yield ('bound-inside-an-instruction', held({0x008: [('JC addr', 0x00B), ('TIMER XXH', 0xE1), ('RETI',)],
                                                0x12F: [('READ R4A',), ('READ R4A',), ('RETI',)]}),
           ['passed',
            'bound at 004 level 2: 1',
            'bound at 008 level 2: 9',
            'longest wait: 9 at 008 level 2'], 'of 47 E1 2F, TIMER and RETI, the last two bytes are JMP 12FH too')
    yield ('bound-60-diamonds', held({0x008: [('JMP addr', 0x200)], 0x200: diamonds(60)}),
           ['passed',
            'bound at 004 level 2: 1',
            'bound at 008 level 2: 363',
            'longest wait: 363 at 008 level 2'], '2 to the 60 chains')
    yield ('bound-straight', assemble({0: [('JMP addr', 0x005)],
                                       0x004: [('RETI',), ('EI',), 'main', ('JMP addr', 'main')] + 4087 * [('READ R4A',)] + [('RET',)]}),
           ['passed',
            'bound at 004 level 2: 1',
            'bound at 008 level 2: 8175',
            'longest wait: 8175 at 008 level 2'], 'a chain of 4,088 pairs')


def shortest_ways(image):
    """How many shortest ways there are."""
    count = reference.counts(image)
    ways = {(0, 0): 1}
    for pair in sorted(count, key=count.get):
        for after in set(reference.successors(image, *pair)):
            if count[after] == count[pair] + 1:
                ways[after] = ways.get(after, 0) + ways[pair]
    return ways[reference.checker(image)[1][1:]]


def expected(image, lines):
    made = reference.checkmask(image or b'')
    assert made == lines, (made, lines)
    assert not made[0].startswith('fault') or shortest_ways(image) == 1, made
    return stored.printed(made)


def readme():
    head = ('# Stored cases of `checkmask`\n\nEach folder is one case: `mask.bin` and what the program must print, `expected`. A file `missing` says '
            'that mask.bin is left out.\n`tools/make/make_checkmask_cases.py` makes them all, this page too; '
            '`tools/compare/differential.py` runs them.\n'
            'Those of a mask that passes are named `bound-..`, after what decides how long an edge is held.\n')
    return stored.page(head, ((name, guards) for name, _, _, guards in cases()))


def files():
    """All that is stored, as a dict from paths to bytes."""
    result = {CASES / 'README.md': readme()}
    for name, image, lines, _ in cases():
        result |= stored.case_files(CASES / name, {'mask.bin': image, 'expected': expected(image, lines)})
        if name == 'call-in-an-interrupt':      # the program's own case
            result |= {CRATE / 'data' / 'mask.bin': image, CRATE / 'stdout': stored.printed(lines)}
    return result


if __name__ == '__main__':
    stored.write_files(files())
