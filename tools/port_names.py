#!/usr/bin/env python3
"""Respells the repository's own definitions and lemmas from camelCase to snake_case, once, after the Rattle of 2026-11.

usage: python3 tools/port_names.py        at the top of the repository

It takes every name in camelCase that a file of specs/ or proofs/ declares (definitions, lemmas, fields of records), and rewrites it
wherever it stands as a whole word: in specs/, proofs/, the clauses of src/ and the edits of must-fail/ and wrong/. A function of src/, a
C name, a string or a vector keeps its name. It stops where two names would fall together.
"""

import os
import re
import sys

WORD = r"[^\s(){}\[\].,;:λ'`\"◌⌜⌝⟦⟧]+"
DECLARED = re.compile(r"^(?:abbrev |unfoldable |instance )*(?:pub )?(" + WORD + r") :", re.M)
FIELD = re.compile(r"^\s+(?:pub )?(" + WORD + r") :", re.M)
CAMEL = re.compile(r"^[a-z][^\s]*?[a-z0-9][A-Z]|^[ab]Of$")


# A local lemma that would fall together with a definition's new name, in the one file that has both.
FIRST = ("crates/assembler_laws/proofs/Numbers.antt", "digit_value", "digit_is")


def snake(name):
    return re.sub(r"(?<=[a-z0-9])[A-Z]+", lambda m: "_" + m.group(0).lower(), name)


def files(kinds, top="crates"):
    for folder, dirs, names in os.walk(top):
        dirs[:] = sorted(d for d in dirs if d != "out")
        for name in sorted(names):
            if name.endswith(kinds):
                yield os.path.join(folder, name)


def read(path):
    with open(path, encoding="utf-8") as f:
        return f.read()


def main():
    path, old, new = FIRST
    if os.path.isfile(path) and re.search(r"\bdigitValue\b", read(path)):
        text = re.sub(rf"(?<![\w'.-]){old}(?![\w'-])", new, read(path))
        with open(path, "w", encoding="utf-8") as f:
            f.write(text)
    declared, fields = set(), set()
    for path in files((".antt",)):
        text = read(path)
        declared |= set(DECLARED.findall(text))
        fields |= set(FIELD.findall(text))
    names = {n for n in declared | fields if CAMEL.match(n)}
    new = {n: snake(n) for n in names}
    clash = []
    for path in files((".antt",)):          # two names fall together where one file has both
        lines = "\n".join(line for line in read(path).split("\n") if not line.startswith("--"))
        words = set(re.findall(r"(?<![\w'.-])[\w'-]+(?![\w'.-])", lines))
        clash += [f"{path}: {n}" for n in sorted(names & words) if new[n] in words]
    if clash or len(set(new.values())) < len(new):
        print("these fall together:\n" + "\n".join(clash), file=sys.stderr)
        return 1
    pattern = re.compile(r"(?<![\w'-])(" + "|".join(re.escape(n) for n in sorted(names, key=len, reverse=True)) + r")(?![\w'-])")
    changed = 0
    for path in files((".antt", ".rt", ".edit")):
        text = read(path)
        after = pattern.sub(lambda m: new[m.group(1)], text)
        if after != text:
            changed += 1
            with open(path, "w", encoding="utf-8") as f:
                f.write(after)
    print(f"{len(names)} names, {changed} files")
    return 0


if __name__ == "__main__":
    sys.exit(main())
