#!/usr/bin/env python3
"""Counts the instructions of a step of Run, and fails where one takes more than docs/PERFORMANCE.md says, and three tenths on top. A plain
engine's are printed beside them.

usage: tools/gate/step_instructions.py BENCH        BENCH: the bench's program, linked to the proved library

The compiler lays the engine's loop out well or badly for reasons far from what was changed: only counting shows it. Counts are valgrind's, the
same on every run whatever else the machine does. Where valgrind is not installed nothing is counted, and that is said."""
import re
import shutil
import subprocess
import sys

from paths import ROOT

DOCUMENT = ROOT / "docs" / "PERFORMANCE.md"
STEPS = 10000
SLACK = 1.3


def figures():
    """The rows `| Run, MASK, a step | .. | FIGURE |` of the table of what is held: the library's figure is the last."""
    text = DOCUMENT.read_text(encoding="utf-8")
    part = text.split("## Instructions of a step", 1)[1].split("\n## ", 1)[0]
    rows = re.findall(r"^\| Run, ([a-z ]+), a step \|.*\| ([0-9.]+) \|$", part, re.M)
    return {name: float(figure) for name, figure in rows}


def counted(bench, engine, mask, runs):
    """The instructions of so many Runs, and the cycles that the machine spent in them."""
    command = ["valgrind", "--tool=callgrind", "--callgrind-out-file=/dev/null", bench, "count", engine, mask, str(runs)]
    said = subprocess.run(command, capture_output=True, text=True)
    count = re.search(r"Collected : (\d+)", said.stderr)
    cycles = re.fullmatch(r"(\d+) cycles\n", said.stdout)
    if said.returncode != 0 or not count or not cycles:
        sys.exit(f"step_instructions: {' '.join(command)} failed:\n{said.stdout}{said.stderr}")
    if int(cycles[1]) < STEPS * runs:
        sys.exit(f"step_instructions: {engine}, {mask}: {cycles[1]} cycles in {runs} Runs of {STEPS} steps: it does not run on")
    return int(count[1]), int(cycles[1])


def a_step(bench, engine, mask):
    """Without what a call and the program cost: the difference of eleven Runs and one. And the cycles of the eleven."""
    (many, cycles), (one, _) = counted(bench, engine, mask, 11), counted(bench, engine, mask, 1)
    return (many - one) / (10 * STEPS), cycles


def main():
    if len(sys.argv) != 2:
        sys.exit(__doc__)
    held = figures()
    if len(held) != 5:
        sys.exit(f"step_instructions: {len(held)} figures in docs/PERFORMANCE.md, not 5")
    if not shutil.which("valgrind"):
        print("step_instructions: valgrind is not installed: the instructions of a step were NOT counted")
        return
    slow = []
    for mask, figure in held.items():
        (library, cycles), (plain, same) = (a_step(sys.argv[1], engine, mask) for engine in ("library", "plain"))
        if cycles != same:
            sys.exit(f"step_instructions: {mask}: the library spent {cycles} cycles and the plain engine {same}")
        most = SLACK * figure
        print(f"{mask:<18}{library:8.1f} instructions a step, held to {most:.1f}; plain {plain:.1f}, ratio {library / plain:.2f}")
        if library > most:
            slow.append(mask)
    if slow:
        sys.exit(f"step_instructions: over {SLACK} times the figure of docs/PERFORMANCE.md: {', '.join(slow)}")


main()
