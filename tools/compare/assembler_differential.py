"""Holds the program assemble to the reference assembler: what it prints, and every byte that it leaves.

First the stored cases of tests/assemble and the demonstration, through ./assemble, then the texts of
assembler_cases.py, each in a folder that may hold a mask.bin from before. At the first difference the
case is saved under target/differential and the exit status is 1.
Run as a program it compares the assembler alone. Build it first: tools/build assemble
"""

import collections
import itertools
import multiprocessing

import paths  # noqa: F401
import assembler
import assembler_cases
from comparing import ROOT, built, differs, first_difference, run_in_folder, start, stop

ASSEMBLE = built('assemble')
STORED = ROOT / 'tests' / 'assemble'
DEMO = ROOT / 'demo'

# What mask.bin holds before: nothing, fewer bytes than a mask, more.
BEFORE = (None, b'older', bytes(5000))


def file_difference(name, want, have):
    """How a file differs from what it must hold; None is a missing one."""
    if have is None:
        return f'{name} is missing'
    if want is None:
        return f'{name} should not be there'
    if len(want) != len(have):
        return f'{name} has {len(have)} bytes, expected {len(want)}'
    at = next(at for at in range(len(want)) if want[at] != have[at])
    return f'byte {at:03X} of {name} is {have[at]:02X}, expected {want[at]:02X}'


def wrong(printed, got, files, left):
    """How what is printed and left differs from what must be."""
    why = [] if got == printed else [first_difference(printed, got)]
    return why + [file_difference(name, files.get(name), left.get(name)) for name in sorted({*files, *left})
                  if files.get(name) != left.get(name)]


def run_text(text, before, printed, mask):
    """What the program prints and leaves, and what is wrong with it; a refusal leaves mask.bin as it was."""
    got, trouble, left = run_in_folder([ASSEMBLE], {'source.asm': text, 'mask.bin': before})
    why = wrong(printed, got, {'source.asm': text, 'mask.bin': mask or before}, left)
    return got, left.get('mask.bin'), [trouble] * bool(trouble) + why


def report(name, text, printed, mask, result):
    got, have, why = result
    differs(name, {'source.asm': text, 'mask.bin': have, 'expected_mask.bin': mask}, got, why, printed)


def stored_cases():
    """How many ran."""
    folders = sorted(folder for folder in STORED.iterdir() if folder.is_dir())
    for folder, before in zip(folders, itertools.cycle(BEFORE)):
        text, mask = ((folder / name).read_bytes() if (folder / name).exists() else None for name in ('source.asm', 'mask.bin'))
        printed = (folder / 'expected').read_bytes()
        result = run_text(text, before, printed, mask)
        if result[2]:
            report(f'tests/assemble/{folder.name}', text, printed, mask, result)
    return len(folders)


def demonstration():
    """The stored programs through ./assemble, and a text that is refused, whose line the script shows."""
    script, bad, why = ROOT / 'assemble', {'bad.asm': b'NOP\nNOP\tNOP\n', 'bad.bin': b'older'}, []
    for name in ('pump', 'gauge'):
        got, trouble, left = run_in_folder([script, DEMO / f'{name}.asm', f'{name}.bin'], {})
        why += [trouble] * bool(trouble) + wrong(b'', got, {f'{name}.bin': (DEMO / f'{name}.bin').read_bytes()}, left)
    got, trouble, left = run_in_folder([script, 'bad.asm', 'bad.bin'], bad, status=1)
    why += [trouble] * bool(trouble) + wrong(b'refused 12 at line 2\nNOP^INOP\n', got, bad, left)
    if why:
        stop(f'./assemble: {"; ".join(why)}')


def judge(job):
    """A case in a process of its own: the model's answer, and the program's with what is wrong."""
    case, before = job
    why, line, mask = assembler.examine(case.text or b'')
    printed = assembler.printed(why[0] if why else 0, line).encode()
    return why, line, mask, printed, run_text(case.text, before, printed, mask)


def random_texts():
    """How many ran. A batch is done before its answers are looked at: a pool that is left amid its work may wait for ever."""
    met, jobs = collections.Counter(), zip(assembler_cases.cases(), itertools.cycle(BEFORE))
    with multiprocessing.Pool() as pool:
        for batch in iter(lambda: list(itertools.islice(jobs, 200)), []):
            for (case, _), (why, line, mask, printed, result) in zip(batch, pool.map(judge, batch, 10)):
                if case.planned not in (None, (why[0] if why else 0, line, mask)):
                    stop(f'the model on {case.name}: planned {case.planned[:2]}, got {why} at line {line}')
                if result[2]:
                    report(f'assemble, {case.name}', case.text, printed, mask, result)
                assembler_cases.note(met, case, why, line)
    few = assembler_cases.too_few(met)
    if few:
        stop(f'the texts meet too few of: {", ".join(few)}')
    return met['texts']


def compare_all():
    stored = stored_cases()
    demonstration()
    print(f'differential: {stored} stored texts, the demonstrations and {random_texts()} texts through assemble, 0 differences')


def main():
    start(ASSEMBLE)
    compare_all()


if __name__ == '__main__':
    main()
