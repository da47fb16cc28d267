#!/usr/bin/env python3
"""Writes the impossible clauses that a check asks for: `write the clause `..``, from its output on standard input, in a crate's folder."""

import re
import sys

done = {}
for line in sys.stdin:
    m = re.match(r"(?:so far: )?(\./[^:]+):(\d+):(\d+): error: `[^`]*`: write the clause `([^`]*)`", line)
    if not m:
        continue
    path, at, text = m.group(1), int(m.group(2)), m.group(4)
    if (path, text) in done:
        continue
    uses = " ".join(l for l in open(path, encoding="utf-8") if l.startswith(("use ", "pub use ")))
    text = re.sub(r"(?:\w[\w']*\.)+(\w+)", lambda m: m.group(1) if re.search(rf"\b{m.group(1)}\b", uses) else m.group(0), text)
    done.setdefault(path, []).append((at, text))
for path, clauses in done.items():
    if isinstance(path, tuple):
        continue
    lines = open(path, encoding="utf-8").read().split("\n")
    for at, text in sorted(set(clauses), reverse=True):
        indent = re.match(r" *", lines[at - 1]).group(0)
        lines.insert(at - 1, indent + text)
        print(f"{path}:{at}: {text}")
    open(path, "w", encoding="utf-8").write("\n".join(lines))
