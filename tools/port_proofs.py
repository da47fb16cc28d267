#!/usr/bin/env python3
"""Turns a function's Proof.antt, which handed the needs to `tie.spec` in their order, into Invariants.antt and Answers.antt, which name goals.

usage: python3 tools/port_proofs.py NAMES CRATE [FUNCTION..]

NAMES is the names.json that `rt check --generated DIR --old-names` writes in the crate's folder CRATE. Used once, for the move to the
Rattle of 2026-11. A proof that has another form is left, and named.
"""

import json
import os
import re
import sys

END = r"(?![\w'-])"
TRIVIAL = re.compile(r"^\(?λ c( κs)?\. (search rules|omega arith|refl|tt)\)?$")


def blocks(text):
    """The file's parts: head comment and uses, then top-level items, each with the lines that belong to it."""
    lines = text.split("\n")
    out, current = [], []
    for line in lines:
        if line.strip() == "" and current:
            out.append(current)
            current = []
        elif line.strip() != "":
            current.append(line)
    if current:
        out.append(current)
    return out


def matching(text, at):
    depth = 0
    i = at
    while i < len(text):
        if text.startswith("--", i) and (i == 0 or text[i - 1] in " \n"):
            i = text.find("\n", i)
            if i < 0:
                break
            continue
        if text[i] in "({[":
            depth += 1
        elif text[i] in ")}]":
            depth -= 1
            if depth == 0:
                return i
        i += 1
    raise ValueError("no end")


def arguments(text):
    """The arguments of an application, as texts, each with the comments above it."""
    out, comment, i = [], [], 0
    while i < len(text):
        if text[i] in " \n":
            i += 1
        elif text.startswith("--", i):
            end = text.find("\n", i)
            end = len(text) if end < 0 else end
            comment.append(text[i:end])
            i = end
        elif text[i] == "(":
            end = matching(text, i)
            out.append((comment, text[i : end + 1]))
            comment = []
            i = end + 1
        else:
            m = re.match(r"[^\s()]+", text[i:])
            out.append((comment, m.group(0)))
            comment = []
            i += m.end()
    return out


def plain(label):
    return label.replace("-", "_").lower()


class Names:
    def __init__(self, listed, parameters):
        self.parameters = parameters
        self.callees = {plain(p[2][0]): p[3] for p in listed["places"] if p[3]}
        self.own_requires = []
        self.top = "crates"
        self.params = {p[2][0]: listed["params"].get(p[3], []) for p in listed["places"] if p[3]}
        self.params = {plain(k): v for k, v in self.params.items()}
        self.needs = listed["needs"]
        self.clauses = listed["clauses"]
        self.places = listed["places"]
        self.by_name = listed["places_by_name"]
        self.arms = listed["arms"]
        self.asked_at = listed["asked_at"]
        self.loops = listed["loops"]
        self.changed = listed["changed"]
        self.index = {p[0]: i for i, p in enumerate(self.places)}
        self.labels = {}
        for i, p in enumerate(self.places):
            old, new = p[2]
            if old:
                self.labels.setdefault(plain(old), set()).add(new)
        self.fields = {}
        for arm in self.arms:
            if arm:
                for field, old, path in arm[2]:
                    self.fields.setdefault(tuple([plain(old)] + path), set()).add((arm[0], field))

    def place(self, old):
        i = self.index.get(old)
        return self.by_name[i] if i is not None else None

    def near(self, place, key):
        """What an old label says at a place: the arm's row at it or at the nearest place above."""
        i = self.index.get(place)
        while i is not None:
            arm = self.arms[i]
            if arm:
                for field, old, path in arm[2]:
                    if tuple([plain(old)] + path) == key:
                        return arm[0], field
            i = self.index.get(self.places[i][1])
        return None

    def label(self, place, old):
        i = self.index.get(place)
        while i is not None:
            if plain(self.places[i][2][0]) == old:
                return self.places[i][2][1]
            i = self.index.get(self.places[i][1])
        found = self.labels.get(old, set())
        return next(iter(found)) if len(found) == 1 else None


ALIAS = re.compile(r"let ([\w'-]+) = ([a-zA-Z][\w'-]*(?:\.[\w'-]+)+) in(?=\s)[ \n]*")


def inlined(text):
    """A `let` that names a path alone gives way to the path, which is short now."""
    while True:
        m = ALIAS.search(text)
        if not m:
            return text.replace("let\0 ", "let ")
        name = re.escape(m.group(1))
        if re.search(r"λ (?:\([^)]*?|[\w' ]*?)(?<![\w'.-])" + name + r"(?![\w'-])", text[m.end() :]):
            text = text[: m.start()] + "let\0 " + text[m.start() + 4 :]           # bound again further in: it stays
            continue
        rest = re.sub(r"(?<![\w'.-])(?<!let )" + re.escape(m.group(1)) + r"(?![\w'-])(?! :)", lambda _: m.group(2), text[m.end() :])
        text = text[: m.start()] + rest


PATH = re.compile(r"(?<![\w'.-])([a-zA-Z][\w'-]*)((?:\.[\w'₀₁₂-]+)+)")


def turned(text, names, place, said, bare=""):
    """The paths of a text, in the new names; a context that is handed on whole is followed by `bare`."""
    text = "\n\n".join(inlined(part) for part in text.split("\n\n"))
    own = set(names.labels) | {"args", "ranges", "requires", "well_formed", "before", "match", "pre"}

    def path(m):
        head, parts = m.group(1), m.group(2)[1:].split(".")
        if head in ("goal", "I") or not any(plain(p) in own or plain(p).rstrip("0123456789") in names.labels for p in parts):
            return m.group(0)
        kept = [p for p in parts]
        if "before" in kept:
            while "before" in kept:
                kept.remove("before")
        if not kept:
            return head + bare
        label = plain(kept[0])
        if label not in names.labels and label not in own and label.rstrip("0123456789") in names.labels:
            label = label.rstrip("0123456789")
        if label == "args" and len(kept) > 1 and re.fullmatch(r"t\d+", kept[1]):
            kept[1] = names.parameters[int(kept[1][1:]) - 1]
        if len(kept) > 2 and kept[1] in ("new", "last") and kept[2] in ("0", "1") and label in names.params:
            k = 2
            while k < len(kept) and kept[k] == "1":
                k += 1
            if k < len(kept) and kept[k] == "0" and k - 2 < len(names.params[label]):
                kept[1:] = ["new", names.params[label][k - 2]] + kept[k + 1 :]
        kept = [p.replace("type-inv", "type_inv") for p in kept]
        kept[0] = label
        if label == "requires" and names.own_requires:
            found = by_label(kept[1:], names.own_requires)
            if found:
                kept = ["requires", found[0]] + found[1]
        if len(kept) > 1 and kept[1] in ("ensures", "requires") and names.callees.get(label):
            several = clauses_of(names.top, names.callees[label], kept[1])
            found = by_label(kept[2:], several) if several else None
            if found:
                kept = [kept[0], kept[1], found[0]] + found[1]
        if label in ("args", "ranges", "requires", "well_formed"):
            return ".".join([head] + kept)
        for n in range(len(kept), 0, -1):
            key = tuple(kept[:n])
            found = names.near(place, key)
            if not found and len(names.fields.get(key, ())) == 1:
                found = next(iter(names.fields[key]))
            if found:
                return ".".join([head, found[0]] + [found[1]] + kept[n:])
        new = names.label(place, label)
        if new is None:
            if label in names.labels:
                said.append(f"{label} is one of {sorted(names.labels[label])}")
            return ".".join([head] + kept)
        return ".".join([head, new] + kept[1:])

    text = PATH.sub(path, text)
    text = text.replace("λ c κs. ", "λ c. ")
    text = re.sub(r"not-(true|false) _ ([a-z]\.[\w.-]+)", r"\2", text)          # a test knows what is under its `!`
    text = re.sub(r"(?<![(\w])(c\.in_default\.in_default-own\.keys\d+)", r"(opened \1)", text)

    def context(m):
        new = names.place(m.group(1))
        if new is None:
            said.append(f"no place {m.group(1)}")
            return "goal." + m.group(1)
        return "goal." + new

    return re.sub(r"tie\.([A-Z][\w'-]*)" + r"((?: (?:invariant|decreases)-[\w-]+)*)", context, text)


def invariant(name, body, names, said):
    """`invariant-loop a b c = x` in the new form, over the loop's variables by name."""
    m = re.match(r"(invariant|decreases)-(\S+)$", name)
    kind, loop = m.group(1), m.group(2)
    new = params = None
    changed = []
    for (old, label), ps, ch in [(l[0], l[1], c) for l, c in zip(names.loops, names.changed)]:
        if old == loop:
            new, params, changed = label, ps, ch
    if new is None:
        said.append(f"no loop {loop}")
        return None
    d = re.search(re.escape(name) + r"((?: \S+)*) =(?=\s)", body)
    bound = d.group(1).split()
    fields = [("l." if not c else "l.initial.") + p for p, c in zip(params, changed)] + ["l." + p for p, c in zip(params, changed) if c]
    if len(bound) != len(fields):
        said.append(f"{name}: bound {bound}, fields {fields}")
        return None
    rest = body[d.end() :]
    for b, f in zip(bound, fields):
        rest = re.sub(r"(?<![\w'.₀-])" + re.escape(b) + r"(?![\w'₀-])", f, rest)
    new_name = f"{kind}-{new}"
    return f"abbrev pub {new_name} : goal.{new_name}\n{new_name} l ={rest}"


def parameters(folder, function):
    """The names of a function's parameters, from its source."""
    name = function.split(".")[-1]
    found = []
    for top, dirs, files in os.walk(os.path.join(folder, "src")):
        for file in sorted(files):
            with open(os.path.join(top, file), encoding="utf-8") as f:
                text = f.read()
            for m in re.finditer(r"fn " + re.escape(name) + r"\s*\(", text):
                inside = text[m.end() : matching(text, m.end() - 1)]
                found.append((file, re.findall(r"(?:^|,)\s*(?:&mut |&)?(?:mut )?(self|\w+(?=\s*:))", inside)))
    module = function.split(".")[0] + ".rt"
    near = [ps for file, ps in found if file == module] or [ps for _, ps in found]
    return near[0] if near else []


KNOWN = {}


def clauses_of(top, path, kind):
    """The names of the clauses of a function `crate::module::name`, where it has several; top is the folder of the crates."""
    key = (path, kind)
    if key in KNOWN:
        return KNOWN[key]
    parts = path.split("::")
    crate, name, module = parts[0], parts[-1], parts[1] if len(parts) > 2 else "lib"
    found = {}
    folder = os.path.join(top, crate, "src")
    for at, dirs, files in os.walk(folder):
        for file in sorted(files):
            with open(os.path.join(at, file), encoding="utf-8") as f:
                text = f.read()
            for m in re.finditer(r"fn " + re.escape(name) + r"\s*(?:<[^>]*>)?\(", text):
                rest = text[matching(text, m.end() - 1) :]
                rest = re.split(r"\n *\{\n", rest)[0]
                found[file] = re.findall(r"^ *" + kind + r" (\w+) \{", rest, re.M)
    KNOWN[key] = found.get(module + ".rt") or next((v for v in found.values() if v), [])
    return KNOWN[key]


def by_label(digits, names):
    """Right-nested digits as the name of a clause, and what is left of them."""
    k = 0
    while k < len(names) - 1 and digits and digits[0] == "1":
        digits = digits[1:]
        k += 1
    if k < len(names) - 1:
        if not digits or digits[0] != "0":
            return None
        digits = digits[1:]
    return names[k], digits


def split_top(inside):
    parts, depth, last = [], 0, 0
    for i, ch in enumerate(inside):
        depth += ch in "({["
        depth -= ch in ")}]"
        if ch == "," and depth == 0:
            parts.append(inside[last:i])
            last = i + 1
    parts.append(inside[last:])
    return [p.strip() for p in parts if p.strip()]


def wrapped(text, new, names):
    """An answer that is a pair from elsewhere, as a record of the clauses."""
    m = re.search(r"(?m)^" + re.escape(new) + r"((?: \S+)*) =\s", text)
    if not m or re.search(r"=\s+\(?(search|omega|grind)\b", text[m.start() :]):
        return text
    body = text[m.end() :].strip("\n")
    fields, path = [], ""
    for k, n in enumerate(names):
        fields.append(f"{n} = answer{path}.{'1' if k and k == len(names) - 1 and False else '0'}" if k < len(names) - 1 else f"{n} = answer{path[:-2] if path else ''}.1")
        path += ".1"
    return text[: m.end()] + "\n    let answer = " + body.strip() + " in\n    record { " + "; ".join(fields) + " }"


def by_clause(text, names):
    """A tuple that ends an answer, as a record of the clauses."""
    m = re.search(r"(?:=|\bin|λ c\.)\s+(\()", text)
    starts = [m.start(1) for m in re.finditer(r"(?:=|\bin|λ c\.)\s+(\()", text)]
    for at in starts:
        try:
            end = matching(text, at)
        except ValueError:
            continue
        if text[end + 1 :].strip(" )\n") != "":
            continue
        inside, parts, depth, last = text[at + 1 : end], [], 0, 0
        for i, ch in enumerate(inside):
            depth += ch in "({["
            depth -= ch in ")}]"
            if ch == "," and depth == 0:
                parts.append(inside[last:i])
                last = i + 1
        parts.append(inside[last:])
        parts = [p.strip() for p in parts if p.strip()]
        while len(parts) < len(names) and parts and parts[-1].startswith("(") and matching(parts[-1], 0) == len(parts[-1]) - 1:
            parts = parts[:-1] + split_top(parts[-1][1:-1])
        if len(parts) == len(names):
            return text[:at] + "record { " + "; ".join(f"{n} = {p}" for n, p in zip(names, parts)) + " }" + text[end + 1 :]
    return text


def convert(path, crate, function, names, said):
    with open(path, encoding="utf-8") as f:
        text = f.read()
    parts = blocks(text)
    head, items = parts[0], parts[1:]
    comments = [l for l in head if l.startswith("--")]
    uses = [l for l in head if not l.startswith("--") and not re.search(r"\.(Statement\.|Tie as tie)", l)]
    final = [p for p in items if any("tie.close" in l for l in p)]
    if len(final) != 1:
        said.append("no single tie.close")
        return None
    final = final[0]
    items = [p for p in items if p is not final]
    body = "\n".join(final)
    unfolding = next((l for l in final if l.startswith("unfolding ")), None)
    i = body.index("tie.spec")
    args = arguments(body[i + len("tie.spec") : matching(body, body.rfind("(", 0, i))])
    loops = [a for a in args if re.match(r"(invariant|decreases)-", a[1])]
    args = [a for a in args if not re.match(r"(invariant|decreases)-", a[1])]
    if len(args) != len(names.needs):
        said.append(f"{len(args)} arguments for {len(names.needs)} needs")
        return None
    defined = {}
    for p in items:
        for l in p:
            m = re.match(r"(?:abbrev |unfoldable )*(?:pub )?(?:record |data )?([^\s()]+)(?: :| \()", l)
            if m:
                defined[m.group(1)] = p
                break
    places = {n[0]: a[0] for n, a in zip(names.needs, names.asked_at)}
    new_names = {}
    inline = []
    for (comment, arg), (old, new), (place, _) in zip(args, names.needs, names.asked_at):
        if arg in defined:
            new_names.setdefault(arg, []).append((old, new, place))
        elif TRIVIAL.match(arg):
            continue
        else:
            m = re.match(r"^\(λ ([\w κs]+?)\.\s+(.*)\)$", arg, re.S)
            if m:
                inline.append((comment, new, m.group(1).replace(" κs", ""), m.group(2), place))
            else:
                inline.append((comment, new, None, arg, place))
    out_inv, out = [], []
    names.top = os.path.dirname(os.path.abspath(path.split("/proofs/")[0]))
    me = "::".join([crate] + function.replace("+", "").split("."))
    ensured = clauses_of(names.top, me, "ensures")
    names.own_requires = clauses_of(names.top, me, "requires")
    labels = {plain(p[2][1]): p[3] for p in names.places if p[3]}

    def shaped(u, new):
        if new.startswith("returns") and ensured:
            v = by_clause(u, ensured)
            return v if v != u else wrapped(u, new, ensured)
        m = re.match(r"(.*)-requires(.*)$", new)
        if m and plain(m.group(1)) in labels:
            several = clauses_of(names.top, labels[plain(m.group(1))], "requires")
            if several:
                return by_clause(u, several)
        return u

    contexts = {n: p for n, p in defined.items() if re.search(r"\btie\.(?!Need-|invariant|decreases)[A-Z]", "\n".join(p)) and n not in new_names}
    here = {n[1]: a[1] for n, a in zip(names.needs, names.asked_at)}
    # helpers over the function's arguments alone take these
    by_args = set()
    for n, p in list(contexts.items()):
        u = "\n".join(l for l in p if not l.startswith("--"))
        if set(re.findall(r"\btie\.([A-Z][\w'-]*)", u)) == {"Start"} and not re.search(r"\.before\b", u):
            by_args.add(n)
    if by_args and by_args == set(contexts):
        contexts = {}
        bare = ".args"
        items = [[re.sub(r"(?<![\w'.-])(\w+)\.args\b", r"\1", re.sub(r"tie\.Start(?: (?:invariant|decreases)-[\w-]+)*", "Args", l)) for l in p] if any(defined.get(n) is p for n in by_args) else p for p in items]
        for n in by_args:
            defined[n] = next(p for p in items if re.match(r"(?:abbrev |unfoldable )*(?:pub )?" + re.escape(n) + r" :", next(l for l in p if not l.startswith("--"))))
        uses = uses + [f"use Rattle.{crate}.proofs.{function}.Lts.{{Args}}"]
    else:
        bare = ""

    def with_copies(u, new, place):
        """The helpers over a context that an answer uses, as copies over the answer's own."""
        done, copies = set(), []

        def visit(text):
            for n in contexts:
                if n not in done and re.search(r"(?<![\w'.-])" + re.escape(n) + r"(?![\w'-])", text):
                    done.add(n)
                    visit("\n".join(contexts[n]))
                    copies.append(n)

        visit(u)
        texts = []
        for n in [n for n in contexts if n in copies]:
            c = "\n".join(l for l in contexts[n] if not l.startswith("--"))
            c = re.sub(r"tie\.(?!Need-)[A-Z][\w'-]*((?: (?:invariant|decreases)-[\w-]+)*)", "goal." + here[new], c)
            texts.append(c)
        whole = "\n\n".join(texts + [u])
        for n in copies:
            whole = re.sub(r"(?<![\w'.-])" + re.escape(n) + r"(?![\w'-])", n + "-" + new, whole)
        return whole

    needed = set()

    def want(text):
        for n in defined:
            if n not in needed and n not in new_names and not re.match(r"(invariant|decreases)-", n) and re.search(r"(?<![\w'.-])" + re.escape(n) + r"(?![\w'-])", text):
                needed.add(n)
                want("\n".join(defined[n]))

    for n, p in defined.items():
        if re.match(r"(invariant|decreases)-", n):
            want("\n".join(p))
    for p in items:
        t = "\n".join(p)
        name = next((n for n in defined if defined[n] is p), None)
        if name in contexts:
            continue
        if name in needed:
            u = "\n".join(re.sub(r"^((?:abbrev |unfoldable )*)(?=(?:record |data )?" + re.escape(name) + r"(?: :| \())", r"\1pub ", l) for l in p)
            if re.search(r"^pub record ", u, re.M):
                u = re.sub(r"^  (?=[\w'-]+ :)", "  pub ", u, flags=re.M)
            out_inv.append(turned(u, names, None, said))
            continue
        if name and re.match(r"(invariant|decreases)-", name):
            done = invariant(name, t, names, said)
            if done is None:
                return None
            lead = "".join(l + "\n" for l in p if l.startswith("--"))
            out_inv.append(lead + done)
        elif name in new_names:
            for k, (old, new, place) in enumerate(new_names[name]):
                u = re.sub(r"^(?:pub )?" + re.escape(name) + r" : tie\.Need-[^\n]*", f"pub {new} : goal.{new}", t, flags=re.M)
                u = re.sub(r"^" + re.escape(name) + END, new, u, flags=re.M)
                u = re.sub(r"^" + re.escape(new) + r" c κs ", new + " c ", u, flags=re.M)
                u = turned(with_copies(u, new, place), names, place, said, bare)
                out.append(shaped(u, new))
        else:
            out.append(turned(t, names, None, said))
    for comment, new, bound, what, place in inline:
        lines = list(comment)
        lines.append(f"pub {new} : goal.{new}")
        if unfolding:
            lines.append(unfolding)
        lines.append(f"{new}{' ' + bound if bound else ''} = {what}")
        u = turned(with_copies("\n".join(lines), new, place), names, place, said, bare)
        out.append(shaped(u, new))
    module = f"Rattle.{crate}.proofs.{function}"
    if any("opened (" in u or "(opened " in u for u in out):
        uses = uses + ["use borrow.Enum.Refused.{opened}"]
    shared = [f"use {module}.Invariants.{{{', '.join(n for n in defined if n in needed)}}}"] if needed else []
    answers = comments + uses + shared + [f"use {module}.Goals as goal", ""] if out else []
    folder = os.path.dirname(path)
    if out:
        with open(os.path.join(folder, "Answers.antt"), "w", encoding="utf-8") as f:
            f.write("\n".join(answers) + "\n" + "\n\n".join(out) + "\n")
    if out_inv:
        with open(os.path.join(folder, "Invariants.antt"), "w", encoding="utf-8") as f:
            f.write("\n".join((comments if not out else []) + uses + [f"use {module}.Given as goal", ""]) + "\n" + "\n\n".join(out_inv) + "\n")
    os.remove(path)
    return True


def main():
    listed = json.load(open(sys.argv[1], encoding="utf-8"))
    folder = sys.argv[2]
    crate = os.path.basename(os.path.abspath(folder))
    only = sys.argv[3:]
    done = left = 0
    for top, dirs, files in os.walk(os.path.join(folder, "proofs")):
        if "Proof.antt" not in files:
            continue
        function = os.path.relpath(top, os.path.join(folder, "proofs")).replace("/", ".")
        if only and function not in only:
            continue
        key = f"Rattle-{crate}-proofs.{function}.Lts"
        said = []
        if key not in listed:
            print(f"left: {function}: not listed")
            left += 1
            continue
        try:
            ok = convert(os.path.join(top, "Proof.antt"), crate, function, Names(listed[key], parameters(folder, function)), said)
        except Exception as e:
            ok = None
            said.append(repr(e))
        for s in said:
            print(f"{'look' if ok else 'left'}: {function}: {s}")
        done, left = (done + 1, left) if ok else (done, left + 1)
    print(f"{done} turned, {left} left")


if __name__ == "__main__":
    main()
