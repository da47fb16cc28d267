"""Runs a built program in a folder of its own and compares what it prints, and what it leaves there."""

import os
import pathlib
import shutil
import subprocess
import sys
import tempfile

from paths import PROGRAM, ROOT

SAVED = ROOT / 'target' / 'differential'
SECONDS = 60        # for one run of a program


def built(name):
    return ROOT / PROGRAM.format(name)


def stop(text):
    print(f'differential: {text}')
    sys.exit(1)


def start(*programs):
    """Stops where a program is missing; forgets the case that was saved before."""
    for program in programs:
        if not os.access(program, os.X_OK):
            stop(f'{program.relative_to(ROOT)} is missing; build it by: tools/build {program.name}')
    shutil.rmtree(SAVED, ignore_errors=True)


def run_in_folder(command, files, status=0):
    """What a program prints, what went wrong, and the files that it leaves, run in a temporary folder
    with these; None is a missing one. It ends with this status."""
    with tempfile.TemporaryDirectory() as made:
        folder = pathlib.Path(made)
        for name, content in files.items():
            if content is not None:
                (folder / name).write_bytes(content)
        try:
            done = subprocess.run(command, cwd=folder, stdin=subprocess.DEVNULL, stdout=subprocess.PIPE,
                                  timeout=SECONDS, check=False)
        except subprocess.TimeoutExpired:
            return b'', f'no end within {SECONDS} seconds', {}
        left = {path.name: path.read_bytes() for path in folder.iterdir()}
        return done.stdout, f'exit status {done.returncode}' if done.returncode != status else None, left


def run_program(command, files, status=0):
    """What a program prints, and what went wrong."""
    return run_in_folder(command, files, status)[:2]


def save(files):
    shutil.rmtree(SAVED, ignore_errors=True)
    SAVED.mkdir(parents=True)
    for name, content in files.items():
        if content is not None:
            (SAVED / name).write_bytes(content)


def first_difference(expected, got):
    want, have = expected.split(b'\n'), got.split(b'\n')
    for number in range(max(len(want), len(have))):
        pair = [lines[number] if number < len(lines) else None for lines in (want, have)]
        if pair[0] != pair[1]:
            texts = ['no line' if line is None else repr(line[:120].decode('latin-1')) for line in pair]
            return f'line {number + 1}: expected {texts[0]}, got {texts[1]}'
    return 'no line differs'


def differs(name, files, got, why, expected=None):
    save({**files, 'expected': expected, 'got': got})
    stop(f'{name}: {"; ".join(why)}; saved under target/differential')


def compare(name, command, files, expected, status=0):
    got, trouble = run_program(command, files, status)
    if got == expected and not trouble:
        return
    why = [trouble] if trouble else []
    if got != expected:
        why.append(first_difference(expected, got))
    differs(name, files, got, why, expected)
