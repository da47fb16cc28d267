"""The record of the wrong answers, `wrong.lock`: a line a crate, its name, a hash, and how many edits were refused.

A line says that every edit of the crate was tried, and refused, when its files had this hash. The hash is of the kit's version; of the
crate's src/, specs/, proofs/ and edits; and of the src/ and specs/ of the libraries below it. Their proofs are left out: what a library
states is in the other two, and no proof of it makes a false edit above it true. It goes by contents and by the paths in the repository,
so that every clone has the same.
"""

import glob
import hashlib
import os
import re
import subprocess

LOCK = "wrong.lock"
HEADING = "# Written by tools/wrong_answers --record: crate, hash of what its wrong answers were tried on, how many were refused.\n"
PARTS = 4


def stands_on(text):
    """crates.txt: each crate's libraries, of the repository alone. A name may have a word of its own kind behind it, as `NAME staticlib:`."""
    listed = [line.split("#")[0].split(":") for line in text.split("\n") if ":" in line.split("#")[0]]
    names = {name.split()[0] for name, _ in listed}
    return {name.split()[0]: [word for word in words.split() if word in names] for name, words in listed}


def below(crate, libraries):
    """The libraries that the crate reaches."""
    found, left = set(), list(libraries[crate])
    while left:
        name = left.pop()
        if name not in found:
            found.add(name)
            left += libraries[name]
    return sorted(found)


def edits(top="."):
    """The edit files of each listed crate that has any."""
    with open(os.path.join(top, "crates.txt"), encoding="utf-8") as file:
        listed = stands_on(file.read())
    found = {crate: sorted(glob.glob(os.path.join(top, "crates", crate, "wrong", "*.edit"))) for crate in listed}
    return {crate: paths for crate, paths in found.items() if paths}


def version():
    return subprocess.run(["rt", "version"], check=True, capture_output=True, text=True).stdout.strip()


def hash_of(crate, kit, top="."):
    with open(os.path.join(top, "crates.txt"), encoding="utf-8") as file:
        libraries = below(crate, stands_on(file.read()))
    folders = [(crate, part) for part in ("src", "specs", "proofs", "wrong")]
    folders += [(name, part) for name in libraries for part in ("src", "specs")]
    paths = []
    for name, part in folders:
        for folder, _, files in os.walk(os.path.join(top, "crates", name, part)):
            paths += [os.path.join(folder, file) for file in files if file.endswith((".rt", ".antt", ".edit"))]
    whole = hashlib.sha256(f"{kit}\n{crate}: {' '.join(libraries)}\n".encode())
    for path in sorted(paths):
        with open(path, "rb") as file:
            own = hashlib.sha256(file.read()).hexdigest()
        whole.update(f"{own} {os.path.relpath(path, top).replace(os.sep, '/')}\n".encode())
    return whole.hexdigest()


def read(top="."):
    """The recorded lines, crate to (hash, count), and what is wrong with the file."""
    path = os.path.join(top, LOCK)
    if not os.path.isfile(path):
        return {}, [f"there is no {LOCK}: tools/wrong_answers --record tries every edit and writes it"]
    lines, faults = {}, []
    with open(path, encoding="utf-8") as file:
        for number, line in enumerate(file, 1):
            found = re.fullmatch(r"(\w+) ([0-9a-f]{64}) (\d+)\n?", line)
            if found and found.group(1) not in lines:
                lines[found.group(1)] = (found.group(2), int(found.group(3)))
            elif not line.startswith("#"):
                faults.append(f"{LOCK}:{number} is no line `CRATE HASH COUNT`, or its crate's second")
    return lines, faults


def faults(lines, counts):
    """Where the record is not one of the edits that there are: `counts` has how many of each crate."""
    found = []
    for crate in sorted(set(lines) | set(counts)):
        if crate not in lines:
            found.append(f"{LOCK} has no line of {crate}: tools/wrong_answers --record {crate}")
        elif crate not in counts:
            found.append(f"{LOCK} has a line of {crate}, which has no wrong answers: tools/wrong_answers --record of any crate drops it")
        elif lines[crate][1] != counts[crate]:
            found.append(f"{LOCK} has {lines[crate][1]} edits of {crate}, which has {counts[crate]}: tools/wrong_answers --record {crate}")
    return found


def write(lines, top="."):
    with open(os.path.join(top, LOCK), "w", encoding="utf-8") as file:
        file.write(HEADING)
        file.writelines(f"{crate} {own} {count}\n" for crate, (own, count) in sorted(lines.items()))


def commit(top="."):
    """The commit's own hash, or nothing outside git."""
    said = subprocess.run(["git", "-C", top, "rev-parse", "HEAD"], capture_output=True, text=True)
    return said.stdout.strip() if said.returncode == 0 else None


def part_of(own):
    """The part that a commit tries, by its hash."""
    return int(own, 16) % PARTS


def chosen(counts, part):
    """The crates of a part, whole, since a crate is proved before its edits are tried: each part has about as many edits, by `counts`."""
    parts = [(0, index, []) for index in range(PARTS)]
    for crate in sorted(counts, key=lambda name: (-counts[name], name)):
        edits, index, crates = min(parts)
        parts[index] = (edits + counts[crate], index, crates + [crate])
    return parts[part][2]
