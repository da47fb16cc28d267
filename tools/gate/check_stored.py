"""Makes every stored input and every expected output again and holds them to the files.

Nothing is written. Exits 1 where a file is missing, differs, or stands in a folder of made files
and is not made.
"""

import contextlib
import io
import re
import sys

from paths import ROOT
import checker_cases
import glass_vectors
import isa_table
import make_assemble_cases
import make_checkmask_cases
import make_demo
import make_panel_cases
import make_readings_cases
import reference
import vectors

# Folders whose files are all made.
MADE = [make_panel_cases.CASES, make_checkmask_cases.CASES, make_assemble_cases.CASES, make_readings_cases.CASES, make_demo.FOLDER,
        make_panel_cases.CRATE / 'data', make_checkmask_cases.CRATE / 'data', make_readings_cases.CRATE / 'data',
        vectors.CRATE / 'data', checker_cases.CRATE / 'data', glass_vectors.CRATE / 'data']


def made():
    result = {ROOT / 'crates' / 'isa_main' / 'stdout': ('\n'.join(isa_table.lines()) + '\n').encode()}
    for maker in (make_panel_cases, make_checkmask_cases, make_assemble_cases, make_readings_cases, make_demo, checker_cases, glass_vectors,
                  vectors):
        with contextlib.redirect_stdout(io.StringIO()):     # some say what they meet
            result |= maker.files()
    return result


def guide():
    """What docs/SCRIPT.md says of its worked script: each record's bytes in turn, and each report."""
    text = (ROOT / 'docs' / 'SCRIPT.md').read_text()
    rows = [line.split('|')[1:3] for line in text.splitlines() if re.match(r'\| \d+ \| `[0-9A-F ]+` \|', line)]
    script = b''.join(bytes.fromhex(cell.strip(' `')) for _, cell in rows)
    at, offsets = 0, []
    for _, cell in rows:
        offsets.append(at)
        at += len(bytes.fromhex(cell.strip(' `')))
    reports = [line.split()[0] for line in text.splitlines() if line.startswith('    2C001000')]
    lines = reference.panel(make_panel_cases.MASK, script)
    right = (script == make_panel_cases.WORKED and [int(offset) for offset, _ in rows] == offsets
             and [line[:32] for line in lines] == reports and all(set(line[32:]) == {'0'} for line in lines))
    return [] if right else ['docs/SCRIPT.md does not say what its script does']


def main():
    files = made()
    wrong = [f'{path.relative_to(ROOT)} is not what its maker makes' for path, content in files.items()
             if not path.is_file() or path.read_bytes() != content]
    wrong += [f'{path.relative_to(ROOT)} is made by nothing' for folder in MADE
              for path in sorted(folder.rglob('*')) if path.is_file() and path not in files]
    wrong += guide()
    for text in wrong:
        print(f'check_stored: {text}')
    if wrong:
        sys.exit(1)
    print(f'check_stored: {len(files)} files as made')


if __name__ == '__main__':
    main()
