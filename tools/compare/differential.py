"""Drives the reference model and the built programs on the same input and compares line by line.

First the stored cases of tests/panel, tests/checkmask and tests/readings and the demonstrations, then
chance: masks and scripts, good and damaged, through the program panel; masks through the program checker_main
and the program checkmask, which fail, and then masks that pass (bound_differential.py); then the assembler's
(assembler_differential.py) and those of the glass (glass_differential.py). Always the same cases. At the
first difference the case is saved under target/differential and the exit status is 1.
Build the programs first: tools/build NAME.., or all by rt ci
"""

import collections
import itertools
import multiprocessing
import random
import re

import paths  # noqa: F401
import assembler_differential
import bound_differential
import checker_cases
import glass_differential
import isa_table
import make_panel_cases
import reference
from comparing import ROOT, built, compare, differs, first_difference, run_program, start, stop
from panel_input import int_pin, pins, power_on, record, res, run, tmclk, two, write
from stored import printed

PANEL = built('panel')
CHECKER = built('checker_main')
CHECKMASK = built('checkmask')
READINGS = glass_differential.READINGS
LONGEST = make_panel_cases.LONGEST

met = collections.Counter()     # what the panel cases met, by name


# ---------------------------------------------------------------------------
# Stored cases
# ---------------------------------------------------------------------------

def stored_cases(program, names):
    """How many cases of a program ran, each with files of these names."""
    folders = sorted(folder for folder in (ROOT / 'tests' / program.name).iterdir() if folder.is_dir())
    for folder in folders:
        left_out = (folder / 'missing').read_text().split() if (folder / 'missing').exists() else []
        files = {name: None if name in left_out else (folder / name).read_bytes() for name in names}
        compare(f'tests/{program.name}/{folder.name}', [program], files, (folder / 'expected').read_bytes())
    return len(folders)


def demonstrations():
    """How many ran: through ./panel, ./readings and ./checkmask. tools/gate/command_tests.py has the rest of the commands."""
    demo = ROOT / 'demo'
    compare('demo', [ROOT / 'panel', demo / 'mask.bin', demo / 'script.bin'], {}, (demo / 'expected').read_bytes())
    compare('demo/pump.bin', [ROOT / 'panel', demo / 'pump.bin', demo / 'pump_script.bin'], {}, (demo / 'pump_expected').read_bytes())
    compare('demo/pump.bin', [ROOT / 'checkmask', demo / 'pump.bin'], {}, printed(reference.checkmask((demo / 'pump.bin').read_bytes())))
    compare('demo/gauge.bin', [ROOT / 'readings', demo / 'gauge.bin', demo / 'gauge_script.bin'], {}, (demo / 'gauge_expected').read_bytes())
    compare('demo/gauge.bin', [ROOT / 'checkmask', demo / 'gauge.bin'], {}, printed(reference.checkmask((demo / 'gauge.bin').read_bytes())))
    compare('demo/forbidden.bin', [ROOT / 'checkmask', demo / 'forbidden.bin'], {}, (demo / 'forbidden').read_bytes(), status=1)
    return 6


# ---------------------------------------------------------------------------
# Masks by chance
# ---------------------------------------------------------------------------

def any_code(rng, codes):
    """The bytes of a code with fields by chance."""
    code = rng.choice(codes)
    fields = tuple(rng.randrange(isa_table.field_limit(letter, width) + 1)
                   for letter, _, width in isa_table.field_runs(code.pattern))
    return isa_table.write(isa_table.Instruction(code, fields))


RARE = ('RET', 'RETI', 'CALL addr', 'HALT')
COMMON = [code for code in isa_table.CODES if code.mnemonic not in RARE]
STRAIGHT = [code for code in COMMON if 'a' not in code.pattern and code.mnemonic != 'DI']
UNCOMMON = [code for code in isa_table.CODES if code.mnemonic in RARE]


def uniform(rng):
    return rng.randbytes(reference.MASK)


def readable(rng):
    """Codes in a row, nearly all of which can be read; few stop the machine."""
    out = b''
    while len(out) < reference.MASK:
        out += any_code(rng, UNCOMMON if rng.random() < 0.01 else COMMON)
    return out[:reference.MASK]


BRANCHES = [code for code in COMMON if code.pattern.count('a') == 11]


def branch(rng, target):
    """A conditional branch by chance; it keeps bit 11."""
    code = rng.choice(BRANCHES)
    front = [rng.randrange(isa_table.field_limit(letter, width) + 1)
             for letter, _, width in isa_table.field_runs(code.pattern)[:-1]]
    return isa_table.write(isa_table.Instruction(code, (*front, target & 0x7FF)))


def show_carry(rng):
    """CF to the display."""
    return (write('MOV A,XH', 0) + write('RLC A') + write('MOV R1R0,XXH', rng.randrange(16), 14)
            + write('MOV [R1R0],A'))


def show_timer_flag(rng, at):
    """JTMR to the next address, then JTMR over a count on the display: the first one clears TF."""
    count = write('MOV R3R2,XXH', rng.randrange(16), 15) + write('INC [R3R2]')
    return (write('JTMR addr', at + 2 & 0x7FF) + write('JTMR addr', at + 4 + len(count) & 0x7FF) + count)


def straight(rng, at, count):
    """Codes from `at` on that neither go back nor stop; some show what a report does not hold."""
    out = b''
    for _ in range(count):
        kind = rng.randrange(20)
        if kind < 5:
            out += rng.choice([write('MOV R1R0,XXH', rng.randrange(16), rng.choice((14, 15))),
                               write('MOV R3R2,XXH', rng.randrange(16), rng.choice((14, 15))),
                               write('MOV [R1R0],A'), write('MOV [R3R2],A'),
                               write('IN A,PM'), write('IN A,PS'), write('IN A,PP'), write('MOV A,TMRL')])
        elif kind == 5:
            out += write('TIMER XXH', rng.randrange(0xE0, 0x100)) + write('TIMER ON')
        elif kind == 6:
            out += show_carry(rng)
        elif kind == 7:
            out += show_timer_flag(rng, at + len(out))
        else:
            out += any_code(rng, STRAIGHT)
    return out


def panel_program(rng):
    """A main loop with a subroutine, HALT, timer and edge handlers, and branches inside."""
    image = bytearray(uniform(rng))

    def put(at, code):
        image[at:at + len(code)] = code
        return at + len(code)

    base = rng.choice((0x000, 0x800))
    main, sub = base + 0x100, base + 0x300
    put(0, write('JMP addr', main))
    put(4, write('JMP addr', base + 0x400))
    put(8, write('JMP addr', base + 0x500))
    loop = at = put(main, write('TIMER ON') + write('EI'))
    for _ in range(rng.randrange(2, 5)):
        at = put(at, straight(rng, at, rng.randrange(1, 12)))
        kind = rng.randrange(5)
        if kind == 0:
            at = put(at, write(rng.choice(('CLC', 'STC'))) + write('CALL addr', sub) + show_carry(rng))
        elif kind == 1:
            at = put(at, write('HALT'))
        elif kind == 2:
            at = put(at, write('DI') + show_timer_flag(rng, at + 1))
        else:
            at = put(at, branch(rng, loop))
    put(at, write('EI') + write('JMP addr', loop))
    for start, ends in ((sub, ('RET', 'RETI')), (base + 0x400, ('RETI', 'RETI', 'RET')),
                        (base + 0x500, ('RETI', 'RETI', 'RET'))):
        put(put(start, straight(rng, start, rng.randrange(12))), write(rng.choice(ends)))
    return bytes(image)


def edge_program(rng):
    """A branch at or near 7FEh or FFEh, after some codes."""
    image = bytearray()
    while len(image) < reference.MASK:
        image += any_code(rng, STRAIGHT)
    image = image[:reference.MASK]
    at = rng.choice((0x7FB, 0x7FC, 0x7FD, 0x7FE, 0x7FF, 0xFFB, 0xFFC, 0xFFD, 0xFFE))
    before = b''.join(bytes([rng.choice(checker_cases.PLAIN)]) for _ in range(6))
    image[at - 6:at] = before
    image[at:at + 2] = branch(rng, rng.randrange(0x800))
    image[0:2] = write('JMP addr', at - 6)
    return bytes(image)


THROUGH_PAIRS = [code for code in STRAIGHT if '[' in code.mnemonic or code.mnemonic.startswith('READ')]


def straying(rng):
    """Codes through pairs that are in the gap or one beside it; what they read goes to PA, and to the display."""
    out = b''
    while len(out) < reference.MASK:
        low, high = rng.randrange(16), rng.randrange(8, 14)
        beside = rng.choice(((15, 7), (0, 14), (low, high), (low, high)))
        out += rng.choice([any_code(rng, THROUGH_PAIRS), any_code(rng, THROUGH_PAIRS), any_code(rng, COMMON), write('OUT PA,A'),
                           write(rng.choice(('MOV R1R0,XXH', 'MOV R3R2,XXH')), *beside)])
    return out[:reference.MASK]


# Interrupts from the timer at each rate, over a sum in decimal.
TIMER_PROGRAM = make_panel_cases.TIMER
SLEEPER = make_panel_cases.SLEEPER


# ---------------------------------------------------------------------------
# Scripts by chance
# ---------------------------------------------------------------------------

def any_power_on(rng):
    rate = rng.choice(reference.RATES + [0, 1, 2, 3, 255, 255])
    return power_on(rate, rng.choice((3, 4)), *(rng.randrange(16) for _ in range(4)))


def any_record(rng, steps):
    kind = rng.choice((2, 2, 2, 2, 3, 3, 4, 4, 4, 5, 6, 1) if rng.random() < 0.3 else (2, 2, 3, 4, 4, 5))
    if kind == 1:
        return any_power_on(rng)
    if kind == 2:
        return run(rng.choice((0, 1, 2, rng.randrange(20), rng.randrange(steps))))
    if kind == 3:
        return pins(*(rng.randrange(16) for _ in range(3)))
    if kind == 4:
        return int_pin(rng.randrange(2))
    if kind == 5:
        return tmclk(rng.choice((0, 1, 255, 256, rng.randrange(256), rng.randrange(65536))))
    return res()


def good(rng, steps=300):
    """The records of a script that is accepted."""
    return [any_power_on(rng)] + [any_record(rng, steps) for _ in range(rng.randrange(30))]


def bad_nibble(rng):
    over = rng.choice((16, 17, 128, 255))
    where = rng.randrange(5)
    if where == 0:
        return power_on(fill=over)
    if where == 1:
        return int_pin(rng.choice((2, 3, 255)))
    ports = [rng.randrange(16) for _ in range(3)]
    ports[where - 2] = over
    return pins(*ports)


def bad_option(rng):
    return rng.choice([power_on(rate=rng.choice((6, 14, 15, 128, 254))),
                       power_on(commons=rng.choice((0, 1, 2, 5, 255))),
                       power_on(wake_pm=rng.choice((16, 255))), power_on(wake_ps=16), power_on(wake_pp=128)])


def unknown_kind(rng):
    return record(rng.choice((0, 7, 8, 9, 16, 255, 256, 257, 262, 65535)), rng.randbytes(rng.randrange(8)))


def wrong_length(rng):
    kind = rng.randrange(1, 7)
    length = rng.choice([k for k in range(10) if k != reference.PAYLOAD[kind]])
    return record(kind, bytes(rng.randrange(16) for _ in range(length)))


def damaged(rng):
    """A script with one to three kinds of damage."""
    records = good(rng)
    for _ in range(rng.choice((1, 1, 1, 2, 3))):
        at = rng.randrange(len(records) + 1)
        kind = rng.randrange(8)
        if kind < 4:
            records.insert(at, (bad_nibble, bad_option, unknown_kind, wrong_length)[kind](rng))
        elif kind == 4:         # cut off
            script = b''.join(records)
            records = [script[:rng.randrange(len(script) + 1)]]
        elif kind == 5:         # the first record is another
            records.insert(0, any_record(rng, 100))
        elif kind == 6:         # one byte is another
            script = bytearray(b''.join(records) or b'\0')
            script[rng.randrange(len(script))] = rng.randrange(256)
            records = [bytes(script)]
        else:                   # bytes after the last record
            records.append(rng.randbytes(rng.randrange(1, 12)))
    return b''.join(records)


def pulses(rng):
    """For SLEEPER: HALT, then wakes by pins and by INT, and falls that do not wake."""
    out = power_on(rng.choice(reference.RATES), 4, *(rng.randrange(16) for _ in range(4)))
    for _ in range(rng.randrange(4, 20)):
        out += rng.choice([pins(*(rng.choice((0, 15, rng.randrange(16))) for _ in range(3))),
                           int_pin(rng.randrange(2)), run(rng.randrange(12)), run(50)])
    return out


def shaft(rng):
    """For `turbo`: pulses of TMCLK asleep and awake, and wakes by pins and by INT."""
    out = power_on(rng.choice((255, 255, 255, 2, 13)), 4, *(rng.choice((0, 15, rng.randrange(16))) for _ in range(3))) + run(50)
    for _ in range(rng.randrange(6, 30)):
        out += rng.choice([tmclk(rng.choice((1, 55, 56, 256, rng.randrange(256), rng.randrange(65536)))),
                           pins(*(rng.choice((0, 15)) for _ in range(3))), int_pin(rng.randrange(2)), run(rng.randrange(12)), run(50)])
    return out


def of_size(rng, size, records=None):
    """A script of that size: power-ons, INT and RES by chance, filled up with RES and INT."""
    out = [any_power_on(rng)] + (records or [])
    left = size - sum(map(len, out))
    while left >= 40:
        out.append(rng.choice([any_power_on(rng), int_pin(rng.randrange(2)), pins(1, 2, 3), run(rng.randrange(3))]))
        left -= len(out[-1])
    out += left % 4 * [int_pin(1)]
    left -= left % 4 * 5
    out += left // 4 * [res()]
    script = b''.join(out)
    assert len(script) == size
    return script


# ---------------------------------------------------------------------------
# Panel cases
# ---------------------------------------------------------------------------

def panel_cases(rng):
    """Name, mask and script; None is a missing file."""
    for k in range(60):
        yield f'uniform {k}', uniform(rng), b''.join(good(rng))
    for k in range(60):
        yield f'readable {k}', readable(rng), b''.join(good(rng))
    for k in range(120):
        yield f'program {k}', panel_program(rng), b''.join(good(rng, 600))
    for k in range(40):
        yield f'edge {k}', edge_program(rng), any_power_on(rng) + run(7) + run(1) + run(1) + run(5)
    for k in range(120):
        yield f'damaged {k}', rng.choice((uniform, readable, panel_program))(rng), damaged(rng)
    for k in range(10):
        yield f'bytes {k}', uniform(rng), rng.randbytes(rng.randrange(40))
    for k in range(20):
        yield f'pulses {k}', SLEEPER, pulses(rng)
    for rate in reference.RATES:
        yield f'timer at rate {rate}', TIMER_PROGRAM, power_on(rate) + run(6000) + tmclk(300) + run(6000)
    yield 'longest Run', TIMER_PROGRAM, power_on(3) + run(65535)
    yield from limits(rng)
    for k in range(40):
        program = make_panel_cases.turbo(rng.choice(('TIMER ON', 'TIMER ON', 'TIMER OFF')), rng.choice(('EI', 'DI')))
        yield f'pulses of a shaft {k}', program, shaft(rng)
    for k in range(20):
        yield f'strays {k}', straying(rng), b''.join(good(rng, 600))


def limits(rng):
    """Files that are missing, empty, or at a limit, with good and damaged ones."""
    code = uniform(rng) + b'\0'
    some = b''.join(good(rng, 50))
    for length in (None, 0, 1, 4095, 4096, 4097):
        mask = None if length is None else code[:length]
        for script in (some, damaged(rng), b'', None):
            yield f'mask of {length}, script of {script and len(script)}', mask, script
    mask = panel_program(rng)
    yield 'long masks', mask + bytes(10000), some
    for size in (LONGEST - 1, LONGEST):
        yield f'script of {size}', mask, of_size(rng, size)
    for size in (LONGEST + 1, LONGEST + 5, 100000):
        yield f'script of {size}', mask, of_size(rng, size)
    yield 'bad record in a longest script', mask, of_size(rng, LONGEST - 5) + int_pin(2)
    yield 'cut record in a longest script', mask, of_size(rng, LONGEST - 3) + two(0) + b'\6'
    yield 'unknown kind in a script too long', mask, of_size(rng, LONGEST + 1, [record(9)])
    yield 'payload of 65,535', mask, some + record(2, b'', length=65535)


def kinds(script):
    """The kinds of an accepted script's records."""
    at = 0
    while at < len(script):
        yield reference.word(script[at + 2:at + 4])
        at += 4 + reference.word(script[at:at + 2])


def note(lines, script):
    """Notes what a case met."""
    if lines[0].startswith('refused'):
        met[lines[0].partition(' at ')[0]] += 1
        met['refused at an offset'] += not lines[0].endswith(' at 0')
        return
    met['accepted'] += 1
    for line, kind in zip(lines, kinds(script), strict=True):
        report = bytes.fromhex(line)
        met['TMCLK asleep'] += kind == 5 and report[11] == 1
        met[f'level {report[10]}'] += 1
        met[f'halted {report[11]}'] += 1
        met[f'fault {report[12]}'] += 1
        met['sound'] += report[14] != 16
        met['display'] += any(report[16:])


MUST_MEET = ([f'refused {n}' for n in (1, 3, 4, 6, 7, 8)] + [f'level {n}' for n in range(3)]
             + [f'fault {n}' for n in range(4)] + ['halted 0', 'halted 1', 'sound', 'display', 'accepted',
                                                   'refused at an offset', 'TMCLK asleep'])


def random_panel_cases():
    count = 0
    for name, mask, script in panel_cases(random.Random(1130)):
        lines = reference.panel(mask or b'', script or b'')
        note(lines, script)
        compare(f'panel, {name}', [PANEL], {'mask.bin': mask, 'script.bin': script}, printed(lines))
        count += 1
    few = [name for name in MUST_MEET if met[name] < 5]
    if few:
        stop(f'the panel cases meet too few of: {", ".join(few)}')
    return count


# ---------------------------------------------------------------------------
# Checker
# ---------------------------------------------------------------------------

def checker_batches(rng):
    """Lists of masks. In the last one the last mask is cut off, which is refusal 1."""
    slips = [None, None, 0x2E, 0x2F, 0xF0, 0xE0, 0x35, 0x2C]
    structured = [checker_cases.structured(rng, rng.choice(slips)) for _ in range(60)]
    codes = [checker_cases.random_codes(rng) for _ in range(20)] + [readable(rng) for _ in range(20)]
    programs = [panel_program(rng) for _ in range(40)]
    chance = [uniform(rng) for _ in range(30)]
    return [structured, codes, programs, chance + [uniform(rng)[:-1]]]


def random_masks():
    fixed, count = checker_cases.fixed_lines(), 0
    for number, batch in enumerate(checker_batches(random.Random(1131))):
        lines = fixed + checker_cases.stored_lines(batch)
        compare(f'checker, batch {number}', [CHECKER], {'masks.bin': checker_cases.masks_file(batch)}, printed(lines))
        count += len(batch)
    return count


# ---------------------------------------------------------------------------
# Ways to a forbidden place
# ---------------------------------------------------------------------------

FAILING = 2000      # ways to compare, at least


def sparse(rng):
    """NOPs with some codes by chance, branches and calls among them: long ways."""
    image = bytearray([0x3E] * reference.MASK)
    for _ in range(rng.randrange(1, 40)):
        code = rng.choice((any_code(rng, UNCOMMON), any_code(rng, COMMON), branch(rng, rng.randrange(0x800)), write('EI')))
        at = rng.randrange(reference.MASK - 1)
        image[at:at + len(code)] = code
    return bytes(image)


def damaged_program(rng):
    """A program with a few bytes that are others."""
    image = bytearray(panel_program(rng))
    for _ in range(rng.randrange(1, 8)):
        image[rng.choice((rng.randrange(reference.MASK), rng.randrange(0x100, 0x140)))] = rng.randrange(256)
    return bytes(image)


def way_masks(rng):
    """By hand: through every address in main, and then in a subroutine; then by chance, more than enough that fail."""
    longest = bytearray([0x3E] * reference.MASK)
    longest[0xFFF] = 0x35
    yield bytes(longest)
    longest[0xFFD:] = bytes([0xF0, 0x00, 0x3E])
    yield bytes(longest)
    while True:
        for kind in (uniform, readable, sparse, sparse, damaged_program, damaged_program):
            yield kind(rng)


def way_trouble(mask):
    """What `checkmask` prints, what is wrong with it, and the number of pairs: 0 for a mask that passes."""
    got, trouble = run_program([CHECKMASK], {'mask.bin': mask})
    count = reference.counts(mask)
    answer = reference.verdict(mask, count)
    first, *lines = got.decode('latin-1').split('\n')
    why = [trouble] if trouble else []
    if answer == 'passed':
        want = printed(reference.checkmask(mask))
        return got, why + [first_difference(want, got)] * (got != want), 0
    try:
        fields = [line.split() for line in lines[:-1]]
        pairs = [(int(address, 16), reference.LEVELS.index(level)) for address, level, *_ in fields]
    except ValueError as error:
        return got, why + [f'a line is no pair: {error}'], 0
    if first != reference.verdict_line(answer):
        why.append(f'expected {reference.verdict_line(answer)!r}, got {first!r}')
    else:
        wrong = reference.wrong_way(mask, pairs, answer[1:], count[answer[1:]])
        why += [wrong] if wrong else []
    why += [f'line {number + 2} is {line!r}' for number, (pair, line) in enumerate(zip(pairs, lines))
            if line != reference.way_line(mask, *pair)][:1]
    if lines[-1:] != ['']:
        why.append('the last line has no end')
    return got, why, len(pairs)


# How many ways must have so many pairs, and how many must end with each fault and in each level.
LONG = {2: 1500, 10: 1000, 100: 500, 1000: 200, 4096: 10}
ENDS = 50


def random_ways():
    """How many masks, and how many of them fail."""
    masks, lengths, ends = way_masks(random.Random(1132)), [], collections.Counter()
    with multiprocessing.Pool() as pool:
        while sum(map(bool, lengths)) < FAILING:
            batch = list(itertools.islice(masks, 200))
            for mask, (got, why, pairs) in zip(batch, pool.map(way_trouble, batch, 10)):
                if why:
                    differs(f'way, mask {len(lengths)}', {'mask.bin': mask}, got, why)
                lengths.append(pairs)
                ends.update(re.findall(rb'fault \d|level \d|passed', got.partition(b'\n')[0]))
    few = [f'ways of {pairs} pairs' for pairs, many in LONG.items() if sum(length >= pairs for length in lengths) < many]
    few += [end.decode() for end in (b'fault 1', b'fault 2', b'fault 3', b'level 0', b'level 1', b'level 2', b'passed') if ends[end] < ENDS]
    if few:
        stop(f'the masks meet too few of: {", ".join(few)}')
    return len(lengths), sum(map(bool, lengths))


def main():
    start(PANEL, CHECKER, CHECKMASK, assembler_differential.ASSEMBLE, READINGS, glass_differential.GLASS_MAIN)
    panels = stored_cases(PANEL, ('mask.bin', 'script.bin')) + random_panel_cases()
    shown = stored_cases(READINGS, ('mask.bin', 'script.bin'))
    checks = stored_cases(CHECKMASK, ('mask.bin',)) + demonstrations()
    masks = random_masks()
    ways, failing = random_ways()
    print(f'differential: {panels} panel cases, {shown} of readings, {checks} of checkmask and the demonstrations, {masks} masks, '
          f'{ways} masks with {failing} ways, 0 differences')
    bound_differential.compare_all()
    assembler_differential.compare_all()
    glass_differential.compare_all()


if __name__ == '__main__':
    main()
