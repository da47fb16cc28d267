"""Tests what ./panel, ./checkmask, ./readings and ./assemble have around the programs.

Every stored case of tests/ through its command; then exit status, words, options, names, links, full
disks, folders and files that cannot be written, signals, and programs that fail. A test says what it
found and what it expected; the exit status is then 1. What this machine cannot show is said and left out.
Build the programs first: tools/build panel checkmask readings assemble
"""

import contextlib
import os
import pathlib
import re
import resource
import shutil
import signal
import subprocess
import sys
import tempfile
import time

from paths import PROGRAM, ROOT

DEMO = ROOT / 'demo'
STORED = ROOT / 'tests'
LIST = ROOT / 'rust' / 'ht1130' / 'src' / 'refusals.txt'
WORDS = dict(line.split(': ', 1) for line in LIST.read_text().splitlines())
KINDS = {1: ' (power-on)', 2: ' (Run)', 3: ' (pins)', 4: ' (INT)', 5: ' (TMCLK)', 6: ' (RES)'}
LONGEST = 65535
NOBODY = 65534
SECONDS = 60        # for one run of a command
MISSING = 'No such file or directory'
USAGE = {'panel': 'usage: panel MASK SCRIPT\n', 'readings': 'usage: readings MASK SCRIPT\n',
         'checkmask': 'usage: checkmask [--brief] MASK..\n', 'assemble': 'usage: assemble SOURCE MASK\n'}

wrong, left_out, tried = [], [], 0


@contextlib.contextmanager
def new_folder():
    """A folder for the files of a test, which `nobody` may go through."""
    with tempfile.TemporaryDirectory() as made:
        os.chmod(made, 0o755)
        yield pathlib.Path(made)


def command(name):
    return ROOT / name


def program_of(name):
    """Where a built program lies, below the top."""
    return PROGRAM.format(name)


def environment(temporary, **more):
    return {**os.environ, 'LC_ALL': 'C.UTF-8', 'TMPDIR': str(temporary), **more}


def run(argv, folder, **options):
    """Status, standard output and standard error of a command in a folder. It leaves no temporary file."""
    with new_folder() as temporary:
        os.chmod(temporary, 0o777)
        if 'input' not in options:
            options.setdefault('stdin', subprocess.DEVNULL)
        options.setdefault('stdout', subprocess.PIPE)
        options.setdefault('env', environment(temporary))
        try:
            done = subprocess.run(argv, cwd=folder, stderr=subprocess.PIPE, timeout=SECONDS, check=False, **options)
        except subprocess.TimeoutExpired:
            return f'none after {SECONDS} seconds', b'', ''
        rest = sorted(os.listdir(temporary))
        if rest:
            wrong.append(f'{argv}: left {rest}')
    return done.returncode, done.stdout, done.stderr.decode('utf-8', 'replace')


def expect(what, got, status, stdout, stderr):
    """Holds a run to what is expected; None is not looked at, and a pattern may be given for words."""
    global tried
    tried += 1
    for name, have, want in zip(('status', 'standard output', 'standard error'), got, (status, stdout, stderr)):
        if isinstance(want, str) and name == 'standard output':
            want = want.encode()
        if want is not None and (not want.fullmatch(have) if isinstance(want, re.Pattern) else have != want):
            wrong.append(f'{what}: {name} is {have!r:.300}, expected {getattr(want, "pattern", want)!r:.300}')


def expect_files(what, folder, files):
    """The folder holds these files and no others."""
    have = {path.name: path.read_bytes() for path in folder.iterdir() if path.is_file()}
    if have != files:
        wrong.append(f'{what}: the folder holds {({name: len(content) for name, content in have.items()})}, '
                     f'expected {({name: len(content) for name, content in files.items()})}, or other bytes')


# ---------------------------------------------------------------------------
# The stored cases, each through its command
# ---------------------------------------------------------------------------

def script_place(script, offset):
    if len(script) > LONGEST:
        return 'over 65,535 bytes'
    kind = int.from_bytes(script[offset + 2:offset + 4], 'little')
    return f'byte {offset}' + (f', kind {kind}{KINDS.get(kind, "")}' if len(script) >= offset + 4 else '')


def answered(name, first, text, files):
    """Status and words for the first line that a program prints; `files` are the names that are given."""
    if match := re.fullmatch(r'(refused 1)( at 0)?', first):
        return 1, f'{name}: {files[0]}: {WORDS[match[1]]}\n'
    if match := re.fullmatch(r'(refused \d+) at (\d+)', first):
        return 1, f'{name}: {files[1]}: {script_place(text, int(match[2]))}: {WORDS[match[1]]}\n'
    if match := re.fullmatch(r'(refused \d+) at line (\d+)', first):
        place = 'over 65,535 bytes' if len(text) > LONGEST else f'line {match[2]}'
        return 1, f'{name}: {files[0]}: {place}: {WORDS[match[1]]}\n'
    if match := re.fullmatch(r'(fault \d) at (... level \d)', first):
        return 1, f'{name}: {files[0]}: {match[2]}: {WORDS[match[1]]}\n'
    return 0, ''


def visible(line):
    """A line of a text as `cat -vT` shows it."""
    def shown(byte):
        high, low = ('M-', byte - 128) if byte > 127 else ('', byte)
        return high + ('^?' if low == 127 else f'^{chr(low + 64)}' if low < 32 else chr(low))
    return ''.join(map(shown, line))


def stored_cases(name, inputs):
    """The cases of a command that reads these files and prints alone."""
    for folder in sorted(path for path in (STORED / name).iterdir() if path.is_dir()):
        content = [(folder / file).read_bytes() if (folder / file).exists() else None for file in inputs]
        printed = (folder / 'expected').read_bytes()
        status, words = answered(name, printed.split(b'\n')[0].decode(), content[-1] or b'', inputs)
        if None in content:         # the program takes it as empty; the command does not
            status, printed, words = 2, b'', f'{name}: {inputs[content.index(None)]}: {MISSING}\n'
        expect(f'tests/{name}/{folder.name}', run([command(name), *inputs], folder), status, printed, words)


def stored_texts():
    """The cases of `assemble`, into a mask that is there before."""
    for source in sorted(path for path in (STORED / 'assemble').iterdir() if path.is_dir()):
        text, mask = ((source / file).read_bytes() if (source / file).exists() else None for file in ('source.asm', 'mask.bin'))
        printed = (source / 'expected').read_text()
        status, words = answered('assemble', printed.rstrip('\n'), text, ['source.asm'])
        if text is None:
            status, mask, words = 2, None, f'assemble: source.asm: {MISSING}\n'
        elif len(text) > LONGEST:
            printed += 'the text has more than 65,535 bytes\n'
        elif printed:
            printed += visible(text.split(b'\n')[int(printed.split()[-1]) - 1]) + '\n'
        with new_folder() as folder:
            files = {'older.bin': b'older'} | ({} if text is None else {'source.asm': text})
            for file, content in files.items():
                (folder / file).write_bytes(content)
            what = f'tests/assemble/{source.name}'
            expect(what, run([command('assemble'), 'source.asm', 'older.bin'], folder), status, printed, words)
            expect_files(what, folder, files | ({'older.bin': mask} if mask else {}))


# ---------------------------------------------------------------------------
# What most tests need: a good and a bad input for each command
# ---------------------------------------------------------------------------

PASSES, FAILS = (DEMO / 'mask.bin').read_bytes(), (DEMO / 'forbidden.bin').read_bytes()
SCRIPT, REPORTS = (DEMO / 'script.bin').read_bytes(), (DEMO / 'expected').read_bytes()
TEXT, MASK = (DEMO / 'pump.asm').read_bytes(), (DEMO / 'pump.bin').read_bytes()
WAY = (DEMO / 'forbidden').read_bytes()
BAD_SCRIPT = SCRIPT + b'\0\0\x09\0'
BAD_TEXT = b'NOP\nJMP THERE'
FAULT_WORDS = '1D4 level 2: ' + WORDS['fault 2']
VERDICT = b'fault 2 at 1D4 level 2'
FILES = {'m': PASSES, 'f': FAILS, 's': SCRIPT, 'b': BAD_SCRIPT, 't': TEXT, 'u': BAD_TEXT, 'short': PASSES[:-1]}
GOOD = {'panel': ['m', 's'], 'readings': ['m', 's'], 'checkmask': ['m'], 'assemble': ['t', 'new']}
BAD = {'panel': ['m', 'b'], 'readings': ['m', 'b'], 'checkmask': ['f'], 'assemble': ['u', 'new']}
BAD_WORDS = {'panel': f'panel: b: byte {len(SCRIPT)}, kind 9: unknown kind of event\n',
             'readings': f'readings: b: byte {len(SCRIPT)}, kind 9: unknown kind of event\n',
             'checkmask': 'checkmask: f: 1D4 level 2: CALL outside main\n',
             'assemble': 'assemble: u: line 2: label missing, not above its ORG or defined again\n'}


@contextlib.contextmanager
def filled_folder():
    with new_folder() as folder:
        for name, content in FILES.items():
            (folder / name).write_bytes(content)
        yield folder


def statuses():
    """Each status of each command; the words typed by hand."""
    with filled_folder() as folder:
        for name in USAGE:
            expect(f'{name}, good', run([command(name), *GOOD[name]], folder), 0, None, '')
            expect(f'{name}, bad', run([command(name), *BAD[name]], folder), 1, None, BAD_WORDS[name])
        expect('assemble, the line', run([command('assemble'), 'u', 'x'], folder), 1, 'refused 14 at line 2\nJMP THERE\n', BAD_WORDS['assemble'])
        expect_files('assemble', folder, FILES | {'new': MASK})
        for mask in ('short', 's'):
            expect('panel, mask', run([command('panel'), mask, 'b'], folder), 1, 'refused 1 at 0\n', f'panel: {mask}: mask is not 4,096 bytes\n')
            expect('checkmask, mask', run([command('checkmask'), mask], folder), 1, 'refused 1\n', f'checkmask: {mask}: mask is not 4,096 bytes\n')
        script = f'if {command("checkmask")} f; then echo flashed; fi; {command("checkmask")} m > out && echo flashed'
        expect('checkmask M && flash M', run(['bash', '-c', script], folder), 0, WAY + b'flashed\n', BAD_WORDS['checkmask'])


def unreadable_files():
    """A file that is missing, a folder, a path below a file, the empty name; nothing on standard output."""
    with filled_folder() as folder:
        (folder / 'd').mkdir()
        for bad, why in (('none', MISSING), ('no/ne', MISSING), ('m/x', 'Not a directory'), ('d', 'Is a directory'), ('', MISSING)):
            said = bad or "''"
            for name, argv in (('panel', [bad, 's']), ('panel', ['m', bad]), ('readings', [bad, 's']), ('readings', ['m', bad]),
                               ('checkmask', [bad]), ('checkmask', ['--brief', bad]), ('assemble', [bad, 'new'])):
                expect(f'{name} {argv}', run([command(name), *argv], folder), 2, '', f'{name}: {said}: {why}\n')
        expect('checkmask, some missing', run([command('checkmask'), '--brief', 'none', 'f', 'm'], folder), 2,
               b'f: ' + VERDICT + b'\nm: passed\n', f'checkmask: none: {MISSING}\n' + BAD_WORDS['checkmask'])
        expect_files('unreadable files', folder, FILES)
        as_nobody('a file that may not be read', lambda options: (
            os.chmod(folder / 'm', 0), expect('checkmask, no permission', run([command('checkmask'), 'm'], folder, **options), 2, '',
                                              'checkmask: m: Permission denied\n')))


def options():
    with filled_folder() as folder:
        for name, usage in USAGE.items():
            for argv in (['--help'], ['--help', 'none'], ['m', '--help', 's', 't']):
                got = run([command(name), *argv], folder)
                expect(f'{name} {argv}', got, 0, re.compile(re.escape(usage.encode()) + rb'\n.*\nExit status: 0 .*, 1 .*, 2 .*\.\n', re.DOTALL), '')
            version = re.compile(rb'%s of HT1130\ncommit [^\n]+\nkit [^\n]+\n' % name.encode())
            expect(f'{name} --version', run([command(name), '--version'], folder), 0, version, '')
            for argv, why in ((['--no', 'm', 's'], 'no option --no'), (['-x', 'm', 's'], 'no option -x'), (['--brief=1'], 'no option --brief=1')):
                expect(f'{name} {argv}', run([command(name), *argv], folder), 2, '', f'{name}: {why}\n{usage}')
            if name != 'checkmask':
                for argv in ([], ['m'], ['m', 's', 's'], ['--', '--help']):
                    count = len([one for one in argv if one != '--'])
                    expect(f'{name} {argv}', run([command(name), *argv], folder), 2, '', f'{name}: 2 names are wanted, not {count}\n{usage}')
                expect(f'{name} --brief', run([command(name), '--brief', 'm', 's'], folder), 2, '', f'{name}: no option --brief\n{usage}')
        for argv in ([], ['--'], ['--brief']):
            expect(f'checkmask {argv}', run([command('checkmask'), *argv], folder), 2, '', 'checkmask: a name is wanted\n' + USAGE['checkmask'])
        expect_files('options', folder, FILES)


def several_masks():
    with filled_folder() as folder:
        passed = run([command('checkmask'), 'm'], folder)[1]
        headed = b'==> f <==\n' + WAY + b'==> m <==\n' + passed
        expect('checkmask, two', run([command('checkmask'), 'f', 'm'], folder), 1, headed, BAD_WORDS['checkmask'])
        expect('checkmask, passed twice', run([command('checkmask'), 'm', 'm'], folder), 0, 2 * (b'==> m <==\n' + passed), '')
        short = 'checkmask: short: mask is not 4,096 bytes\n'
        for argv in (['--brief', 'f', 'm', 'short'], ['f', 'm', '--brief', 'short'], ['f', '--brief', '--', 'm', 'short']):
            expect(f'checkmask {argv}', run([command('checkmask'), *argv], folder), 1,
                   b'f: ' + VERDICT + b'\nm: passed\nshort: refused 1\n', BAD_WORDS['checkmask'] + short)
        expect('checkmask --brief', run([command('checkmask'), '--brief', 'm'], folder), 0, 'm: passed\n', '')


def standard_input():
    with filled_folder() as folder:
        for name, argv, given, status, stdout, stderr in (
                ('panel', ['-', 's'], PASSES, 0, REPORTS, ''),
                ('panel', ['m', '-'], SCRIPT, 0, REPORTS, ''),
                ('panel', ['--', 'm', '-'], SCRIPT, 0, REPORTS, ''),
                ('panel', ['m', '-'], BAD_SCRIPT, 1, None, f'panel: -: byte {len(SCRIPT)}, kind 9: unknown kind of event\n'),
                ('panel', ['m', '-'], b'', 1, 'refused 8 at 0\n', 'panel: -: byte 0: script does not start with power-on\n'),
                ('readings', ['m', '-'], SCRIPT[:-1], 1, None, None),
                ('checkmask', ['-'], FAILS, 1, WAY, f'checkmask: -: {FAULT_WORDS}\n'),
                ('checkmask', ['--brief', 'm', '-'], FAILS, 1, b'm: passed\n-: ' + VERDICT + b'\n', f'checkmask: -: {FAULT_WORDS}\n'),
                ('checkmask', ['-'], PASSES + bytes(10 ** 6), 1, 'refused 1\n', 'checkmask: -: mask is not 4,096 bytes\n'),
                ('assemble', ['-', 'new'], TEXT, 0, '', ''),
                ('assemble', ['-', 'other'], BAD_TEXT, 1, 'refused 14 at line 2\nJMP THERE\n',
                 'assemble: -: line 2: label missing, not above its ORG or defined again\n')):
            expect(f'{name} {argv}', run([command(name), *argv], folder, input=given), status, stdout, stderr)
        expect_files('standard input', folder, FILES | {'new': MASK})
        once = 'standard input, -, can be read once\n'
        for name, argv in (('panel', ['-', '-']), ('readings', ['-', '-']), ('checkmask', ['-', 'm', '-']), ('assemble', ['-', '-'])):
            expect(f'{name} {argv}', run([command(name), *argv], folder), 2, '', f'{name}: {once}{USAGE[name]}')
        closed = run(['bash', '-c', '"$0" - <&-', command('checkmask')], folder)
        expect('checkmask, standard input is closed', closed, 2, '', 'checkmask: -: it is closed\n')


def names():
    """Names that a careless script would split, take for an option or print on two lines."""
    odd = {name: name for name in ('a b', ' ', '-x', '--help', '-input', '*', '$HOME', "it's", 'ä', 'b\\n')}
    odd |= {'a\nb': "$'a\\nb'", 'end\n': "$'end\\n'", '\n': "$'\\n'", '\x1b[31m': "$'\\E[31m'"}
    for name, shown in odd.items():
        with new_folder() as folder:
            bad, script, text = name + 'f', name + 's', name + 't'
            for file, content in {name: PASSES, bad: FAILS, script: SCRIPT, text: BAD_TEXT, 'good': TEXT}.items():
                (folder / file).write_bytes(content)
            expect(f'panel {name!r}', run([command('panel'), '--', name, script], folder), 0, REPORTS, '')
            expect(f'checkmask {name!r}', run([command('checkmask'), '--brief', '--', name], folder), 0, f'{shown}: passed\n', '')
            got = run([command('checkmask'), '--brief', '--', bad], folder)
            expect(f'checkmask {bad!r}', got, 1, None, re.compile(r'checkmask: [^\n]+: ' + re.escape(FAULT_WORDS) + '\n'))
            if got[1].count(b'\n') != 1 or not got[1].endswith(b': ' + VERDICT + b'\n'):
                wrong.append(f'checkmask --brief {bad!r}: {got[1]!r} is no line')
            got = run([command('assemble'), '--', text, name], folder)
            expect(f'assemble {text!r}', got, 1, None, re.compile(r'assemble: [^\n]+: line 2: label missing, [^\n]+\n'))
            expect(f'assemble {name!r}', run([command('assemble'), '--', 'good', name], folder), 0, '', '')
            expect_files(f'assemble {name!r}', folder, {name: MASK, bad: FAILS, script: SCRIPT, text: BAD_TEXT, 'good': TEXT})


def links():
    """Links to the commands, from a folder with a space; a link to a link; through PATH."""
    with filled_folder() as folder:
        place = folder / 'a b'
        place.mkdir()
        for name in USAGE:
            (place / name).symlink_to(command(name))
            (place / f'{name}2').symlink_to(name)
            for link in (place / name, place / f'{name}2', f'a b/{name}'):
                expect(f'{link}', run([link, *GOOD[name]], folder), 0, None, '')
        found = run(['bash', '-c', 'PATH="$PWD/a b:$PATH"; checkmask2 --brief m'], folder)
        expect('checkmask2 through PATH', found, 0, 'm: passed\n', '')
        (folder / 'temporary').mkdir()      # cd prints what it finds through CDPATH
        found = run([command('checkmask'), '--brief', 'm'], folder, env=environment('temporary', CDPATH='.'))
        expect('checkmask with CDPATH', found, 0, 'm: passed\n', '')


# ---------------------------------------------------------------------------
# Output that cannot be written
# ---------------------------------------------------------------------------

def full_output():
    full, closed = 'No space left on device', 'it is closed'
    with filled_folder() as folder:
        for name in USAGE:
            told = [BAD[name], ['--help'], ['--version']] + ([GOOD[name]] if name != 'assemble' else [])
            for argv in told + ([['--brief', 'm']] if name == 'checkmask' else []):
                with open('/dev/full', 'wb') as device:
                    got = run([command(name), *argv], folder, stdout=device)
                expect(f'{name} {argv} > /dev/full', got, 2, None, f'{name}: standard output: {full}\n')
                got = run(['bash', '-c', '"$@" >&-', 'bash', command(name), *argv], folder)
                expect(f'{name} {argv} >&-', got, 2, '', f'{name}: standard output: {closed}\n')
                reader, writer = os.pipe()
                os.close(reader)
                got = run([command(name), *argv], folder, stdout=writer)
                os.close(writer)
                expect(f'{name} {argv}, nobody reads', got, 2, None, '')
        with open('/dev/full', 'wb') as device:      # nothing is printed
            expect('assemble > /dev/full', run([command('assemble'), *GOOD['assemble']], folder, stdout=device), 0, None, '')
        got = run(['bash', '-c', '"$@" 2> /dev/full', 'bash', command('checkmask'), 'f'], folder)
        expect('checkmask 2> /dev/full', got, 1, WAY, '')
        got = run(['bash', '-c', '"$@" 2>&-', 'bash', command('checkmask'), 'f'], folder)
        expect('checkmask 2>&-', got, 1, WAY, '')


def limited(size):
    """What a process does first so that files end at a size, as on a full disk."""
    def limit():
        signal.signal(signal.SIGXFSZ, signal.SIG_IGN)
        resource.setrlimit(resource.RLIMIT_FSIZE, (size, size))
    return {'preexec_fn': limit, 'restore_signals': False}


def no_room():
    """No folder for temporary files, none with room, and room for the input alone."""
    with filled_folder() as folder:
        (folder / 'new').write_bytes(b'older')
        kept = FILES | {'new': b'older'}
        for name in USAGE:
            for place, why in ((folder / 'none', MISSING), (folder / 'm', 'Not a directory')):
                got = run([command(name), *GOOD[name]], folder, env=environment(place))
                expect(f'{name}, TMPDIR {place.name}', got, 2, '', f'{name}: no folder for temporary files: {why}\n')
            where = 'no room for a temporary file: the mask is not whole' if name == 'assemble' else (
                f'{GOOD[name][0]}: no room for a temporary file: File too large')
            got = run([command(name), *GOOD[name]], folder, **limited(4095))
            expect(f'{name}, no room', got, 2, '', f'{name}: {where}\n')
        got = run([command('assemble'), *GOOD['assemble']], folder, **limited(len(TEXT) - 1))
        expect('assemble, no room for the text', got, 2, '', 'assemble: t: no room for a temporary file: File too large\n')
        got = run([command('panel'), 'm', '-'], folder, input=SCRIPT + 100 * b'\2\0\2\0\1\0', **limited(5000))
        expect('panel, no room for the reports', got, 2, '', 'panel: no room for a temporary file: File too large\n')
        expect_files('no room', folder, kept)
        with full_mount('temporary files on a full disk') as place:
            if place:
                for name in USAGE:
                    got = run([command(name), *GOOD[name]], folder, env=environment(place))
                    expect(f'{name}, full TMPDIR', got, 2, '', re.compile(rf'{name}: .*: No space left on device\n'))
                expect_files('full TMPDIR', folder, kept)
        with full_mount('a mask on a full disk') as place:
            if place:
                (folder / 'link').symlink_to(place / 'mask')
                for mask in (place / 'mask', 'link'):
                    got = run([command('assemble'), 't', mask], folder)
                    expect(f'assemble to {mask}', got, 2, '', re.compile(rf'assemble: {mask}: .*No space left on device\n'))
                expect_files('mask on a full disk', place, {'mask': FULL})


FULL = bytes(4096)


@contextlib.contextmanager
def full_mount(what):
    """A folder on a disk that is full of one file, `mask`; None where none can be mounted."""
    with new_folder() as place:
        mounted = subprocess.run(['mount', '-t', 'tmpfs', '-o', 'size=4k', 'none', place], stderr=subprocess.DEVNULL, check=False).returncode == 0
        if not mounted:
            left_out.append(what)
            yield None
            return
        try:
            (place / 'mask').write_bytes(FULL)
            yield place
        finally:
            subprocess.run(['umount', place], check=True)


# ---------------------------------------------------------------------------
# Where the mask goes
# ---------------------------------------------------------------------------

def as_nobody(what, test):
    """A test in which root's rights would hide what is tested: with the options that take them away."""
    if os.geteuid() != 0:
        test({})
        return
    try:
        test({'user': NOBODY, 'group': NOBODY, 'extra_groups': []})
    except PermissionError:
        left_out.append(what)


def mask_is_no_file():
    with filled_folder() as folder:
        (folder / 'd').mkdir()
        os.mkfifo(folder / 'fifo')
        (folder / 'loop').symlink_to('loop')
        (folder / 'itself').symlink_to('t')
        os.link(folder / 't', folder / 'hard')
        kept = FILES | {'itself': TEXT, 'hard': TEXT}
        one = 'SOURCE and MASK are one file'
        for argv, why in ((['t', '-'], 'MASK is a file, not standard output'), (['t', 'd'], 'd: MASK is a folder'),
                          (['t', 'd/'], 'd/: MASK is a folder'), (['t', '.'], '.: MASK is a folder'), (['t', 'new/'], 'new/: MASK is a folder'),
                          (['t', 'fifo'], 'fifo: MASK is no regular file'), (['t', 't'], f't: {one}'), (['t', './t'], f'./t: {one}'),
                          (['t', 'itself'], f'itself: {one}'), (['itself', 't'], f't: {one}'), (['t', 'hard'], f'hard: {one}'),
                          (['u', 'u'], f'u: {one}')):
            expect(f'assemble {argv}', run([command('assemble'), *argv], folder), 2, '', f'assemble: {why}\n{USAGE["assemble"]}')
        with open(folder / 't', 'rb') as source:
            expect('assemble - t < t', run([command('assemble'), '-', 't'], folder, stdin=source), 2, '', f'assemble: t: {one}\n{USAGE["assemble"]}')
        for argv, why in ((['t', 'no/new'], 'no such folder'), (['t', 'm/new'], 'no such folder'), (['t', 'loop'], 'no such folder'),
                          (['t', ''], 'no such folder')):
            shown = argv[1] or "''"
            expect(f'assemble {argv}', run([command('assemble'), *argv], folder), 2, '', f'assemble: {shown}: {why}\n')
        expect_files('MASK is no file', folder, kept)


def mask_is_replaced():
    """Modes are kept, or come of the umask; a link stays a link; a refused text changes nothing."""
    with filled_folder() as folder:
        mask, link, dangling = folder / 'new', folder / 'link', folder / 'dangling'
        for umask, mode in ((0o022, 0o644), (0o077, 0o600), (0o002, 0o664)):
            expect('assemble, new', run([command('assemble'), 't', 'new'], folder, umask=umask), 0, '', '')
            if mask.stat().st_mode & 0o7777 != mode:
                wrong.append(f'assemble: a new mask has mode {mask.stat().st_mode:o}, expected {mode:o}')
            mask.unlink()
        link.symlink_to('new')
        for mode in (0o640, 0o755):
            mask.write_bytes(b'older')
            mask.chmod(mode)
            mask.read_bytes()               # so that the read below is not the first, which may move the time of access
            before = mask.stat()
            expect('assemble, refused', run([command('assemble'), 'u', 'link'], folder), 1, None, None)
            if mask.read_bytes() != b'older' or mask.stat() != before:
                wrong.append('assemble: a refused text touched the mask')
            expect('assemble, link', run([command('assemble'), 't', 'link'], folder), 0, '', '')
            if not link.is_symlink() or mask.read_bytes() != MASK or mask.stat().st_mode & 0o7777 != mode:
                wrong.append(f'assemble: a link to a mask of mode {mode:o} is not followed, or the mode is {mask.stat().st_mode:o}')
        dangling.symlink_to('behind')
        expect('assemble, dangling', run([command('assemble'), 't', 'dangling'], folder), 0, '', '')
        if not dangling.is_symlink() or (folder / 'behind').read_bytes() != MASK:
            wrong.append('assemble: a link to no file is not followed')
        if os.geteuid() == 0:
            os.chown(mask, NOBODY, NOBODY)
            expect('assemble, owner', run([command('assemble'), 't', 'new'], folder), 0, '', '')
            if (mask.stat().st_uid, mask.stat().st_gid) != (NOBODY, NOBODY):
                wrong.append('assemble: the owner of the mask is another')
        expect_files('MASK is replaced', folder, FILES | {name: MASK for name in ('new', 'link', 'dangling', 'behind')})


def mask_is_protected():
    def test(options):
        with filled_folder() as folder:
            (folder / 'new').write_bytes(b'older')
            if options:
                os.chown(folder / 'new', NOBODY, NOBODY)
            (folder / 'new').chmod(0o644)
            folder.chmod(0o555)
            for name in ('new', 'newer'):
                expect('assemble, read-only folder', run([command('assemble'), 't', name], folder, **options), 2, '',
                       f'assemble: {name}: no file can be made beside it: Permission denied\n')
            expect('assemble, refused, read-only folder', run([command('assemble'), 'u', 'new'], folder, **options), 1, None, BAD_WORDS['assemble'])
            folder.chmod(0o777)
            (folder / 'new').chmod(0o444)
            expect('assemble, write-protected', run([command('assemble'), 't', 'new'], folder, **options), 2, '', 'assemble: new: write-protected\n')
            expect_files('MASK is protected', folder, FILES | {'new': b'older'})
    as_nobody('a folder that is read-only', test)


# ---------------------------------------------------------------------------
# Signals, and programs that fail
# ---------------------------------------------------------------------------

def signals():
    """A command that waits for standard input is ended: by that signal, and with no temporary file left."""
    ends = signal.SIGINT, signal.SIGTERM, signal.SIGHUP

    def default():      # nohup and & have some of them ignored
        for number in ends:
            signal.signal(number, signal.SIG_DFL)

    for number in ends:
        with new_folder() as temporary:
            process = subprocess.Popen([command('checkmask'), '-'], env=environment(temporary), stdin=subprocess.PIPE, stdout=subprocess.PIPE,
                                       stderr=subprocess.PIPE, start_new_session=True, preexec_fn=default)
            end = time.monotonic() + 30
            while not list(temporary.glob('*/mask.bin')) and time.monotonic() < end:
                time.sleep(0.01)
            os.killpg(process.pid, number)
            stdout, stderr = process.communicate(timeout=30)
            expect(f'checkmask, {number.name}', (process.returncode, stdout, stderr.decode()), -number, '', '')
            if os.listdir(temporary):
                wrong.append(f'checkmask, {number.name}: left {os.listdir(temporary)}')


def failing_programs():
    """A copy of the commands with no programs, then with programs that print what is no answer or end badly."""
    with filled_folder() as folder:
        copy = folder / 'copy'
        for name in (*USAGE, 'tools/command.sh', LIST.relative_to(ROOT)):
            (copy / name).parent.mkdir(parents=True, exist_ok=True)
            shutil.copy(ROOT / name, copy / name)
        (folder / 'new').write_bytes(b'older')
        for name in USAGE:
            program = copy / program_of(name)
            program.parent.mkdir(parents=True)
            expect(f'{name}, no program', run([copy / name, *GOOD[name]], folder), 2, '',
                   f'{name}: {program_of(name)} is missing; build it by: tools/build {name}\n')
            version = f'{name} of HT1130\ncommit unknown\nkit unknown\n'
            expect(f'{name} --version', run([copy / name, '--version'], folder, env=environment(folder, PATH='/usr/bin:/bin')), 0, version, '')
            odd = f'{name}: {program_of(name)} printed what is no answer: '
            ended = f'{name}: {program_of(name)} ended with status '
            for does, words in (('echo passed; echo passed; exit 3', ended + '3\n'), ('kill -SEGV $$', re.compile(ended + '139.*\n')),
                                ('echo error', odd + 'error\n'), ('echo passed by', odd + 'passed by\n'), ('echo refused', odd + 'refused\n'),
                                ('echo fault 4 at 000 level 0', odd + 'fault 4 at 000 level 0\n'),
                                ('true', f'{name}: no room for a temporary file: the mask is not whole\n' if name == 'assemble' else odd + "''\n")):
                program.write_text(f'#!/bin/bash\n{does}\n')
                program.chmod(0o755)
                expect(f'{name}, program {does!r}', run([copy / name, *GOOD[name]], folder), 2, '', words)
        (copy / program_of('assemble')).write_text('#!/bin/bash\nhead -c 4095 /dev/zero > mask.bin\n')
        expect('assemble, a mask too short', run([copy / 'assemble', 't', 'new'], folder), 2, '',
               'assemble: no room for a temporary file: the mask is not whole\n')
        (copy / LIST.relative_to(ROOT)).unlink()
        (copy / program_of('checkmask')).write_text('#!/bin/bash\necho fault 1 at 000 level 0\n')
        expect('checkmask, no list of words', run([copy / 'checkmask', 'm'], folder), 1, 'fault 1 at 000 level 0\n',
               'checkmask: m: 000 level 0: fault 1\n')
        (copy / 'tools' / 'command.sh').unlink()
        expect('checkmask, no shared piece', run([copy / 'checkmask', 'm'], folder), 2, '', None)
        expect_files('failing programs', folder, FILES | {'new': b'older'})


def the_table():
    """The README's table of the numbers is the list."""
    rows = re.findall(r'^\| (refused \d+|fault \d) \| ([^|]+) \|', (ROOT / 'README.md').read_text(), re.MULTILINE)
    if rows != list(WORDS.items()):
        wrong.append('the table of the numbers in README.md is not rust/ht1130/src/refusals.txt')


def main():
    for name in USAGE:
        if not os.access(ROOT / program_of(name), os.X_OK):
            sys.exit(f'command_tests: {program_of(name)} is missing; build it by: tools/build {name}')
    stored_cases('panel', ['mask.bin', 'script.bin'])
    stored_cases('readings', ['mask.bin', 'script.bin'])
    stored_cases('checkmask', ['mask.bin'])
    stored_texts()
    for test in (statuses, unreadable_files, options, several_masks, standard_input, names, links, full_output, no_room, mask_is_no_file,
                 mask_is_replaced, mask_is_protected, signals, failing_programs, the_table):
        test()
    for text in wrong:
        print(f'command_tests: {text}')
    for text in left_out:
        print(f'command_tests: not tried on this machine: {text}')
    if wrong:
        sys.exit(1)
    print(f'command_tests: {tried} runs of the four commands, status and words as expected')


if __name__ == '__main__':
    main()
