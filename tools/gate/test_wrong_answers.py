#!/usr/bin/env python3
"""Tests of wrong_lock.py: what the hash goes by, what fails of a record, and that the four parts are all crates, each once; of edit_names.py:
which names of an edit are in sight; and of wrong_answers: which errors show that a fact no longer holds."""

import importlib.machinery
import importlib.util
import os
import shutil
import tempfile
import unittest

import edit_names
import wrong_lock

TOOL = importlib.machinery.SourceFileLoader("wrong_answers", os.path.join(os.path.dirname(os.path.abspath(__file__)), os.pardir, "wrong_answers"))
wrong_answers = importlib.util.module_from_spec(importlib.util.spec_from_loader(TOOL.name, TOOL))
TOOL.exec_module(wrong_answers)


def put(top, path, text):
    path = os.path.join(top, path)
    os.makedirs(os.path.dirname(path), exist_ok=True)
    with open(path, "w", encoding="utf-8") as file:
        file.write(text)


class Record(unittest.TestCase):
    def setUp(self):
        self.top = tempfile.mkdtemp()
        self.addCleanup(shutil.rmtree, self.top)
        put(self.top, "crates.txt", "# the crates\nlow:\nmid: low io\nhigh: mid\nother:\n")
        for crate in ("low", "mid", "high", "other"):
            for path in ("src/lib.rt", "specs/Lib.antt", "proofs/f/Proof.antt", "wrong/a.edit"):
                put(self.top, f"crates/{crate}/{path}", f"{crate} {path}")

    def hash(self, kit="kit 1"):
        return wrong_lock.hash_of("high", kit, self.top)

    def moved(self, path):
        was = self.hash()
        put(self.top, path, "changed")
        return self.hash() != was

    def test_what_counts(self):
        for path in ("high/src/lib.rt", "high/specs/New.antt", "high/proofs/f/Proof.antt", "high/wrong/a.edit", "high/wrong/b.edit"):
            self.assertTrue(self.moved(f"crates/{path}"), path)
        for path in ("mid/src/lib.rt", "low/specs/Lib.antt"):  # low is reached by way of mid
            self.assertTrue(self.moved(f"crates/{path}"), path)
        self.assertNotEqual(self.hash("kit 1"), self.hash("kit 2"))

    def test_what_does_not(self):
        for path in ("low/proofs/f/Proof.antt", "mid/wrong/a.edit", "other/src/lib.rt", "high/must-fail/a.edit", "high/src/lib.rt~"):
            self.assertFalse(self.moved(f"crates/{path}"), path)

    def test_a_moved_file(self):
        was = self.hash()
        os.rename(os.path.join(self.top, "crates/high/src/lib.rt"), os.path.join(self.top, "crates/high/src/main.rt"))
        self.assertNotEqual(self.hash(), was)

    def test_a_clone(self):
        copy = os.path.join(self.top, "clone")
        shutil.copytree(self.top, copy)
        self.assertEqual(wrong_lock.hash_of("high", "kit 1", copy), self.hash())

    def test_faults(self):
        counts = {crate: len(paths) for crate, paths in wrong_lock.edits(self.top).items()}
        self.assertEqual(counts, {"low": 1, "mid": 1, "high": 1, "other": 1})
        self.assertIn("there is no wrong.lock", wrong_lock.read(self.top)[1][0])
        whole = {crate: (wrong_lock.hash_of(crate, "kit 1", self.top), 1) for crate in counts}
        wrong_lock.write(whole, self.top)
        self.assertEqual(wrong_lock.read(self.top), (whole, []))
        self.assertEqual(wrong_lock.faults(whole, counts), [])
        self.assertIn("no line of low", wrong_lock.faults({k: v for k, v in whole.items() if k != "low"}, counts)[0])
        self.assertIn("has 1 edits of mid, which has 2", wrong_lock.faults(whole, counts | {"mid": 2})[0])
        self.assertIn("a line of gone", wrong_lock.faults(whole | {"gone": ("0" * 64, 3)}, counts)[0])
        self.assertEqual(wrong_lock.faults({k: ("0" * 64, 1) for k in counts}, counts), [])  # another hash is no fault: all edits are tried

    def test_a_bad_line(self):
        put(self.top, "wrong.lock", f"# heading\nlow {'0' * 64} 1\nlow {'0' * 64} 1\nmid 12 1\n")
        lines, faults = wrong_lock.read(self.top)
        self.assertEqual((list(lines), len(faults)), (["low"], 2))

    def test_parts(self):
        for counts in ({}, {"a": 3}, {"a": 9, "b": 1, "c": 1, "d": 1, "e": 1, "f": 7}, {str(n): n % 7 for n in range(40)}):
            parts = [wrong_lock.chosen(counts, part) for part in range(wrong_lock.PARTS)]
            self.assertEqual(sorted(sum(parts, [])), sorted(counts))
            sums = [sum(counts[crate] for crate in part) for part in parts]
            self.assertLessEqual(max(sums) - min(sums), max(counts.values(), default=0))
        self.assertEqual(sorted({wrong_lock.part_of(f"{n:040x}") for n in range(9)}), [0, 1, 2, 3])


class Names(unittest.TestCase):
    DEFINITIONS = "-- adds up, by sums\nuse lib.ListN.{length,\n  take}\n\nsized : List → ℕ\nsized xs = length xs\n"
    CODE = "use isa::Word; // of bytes\nfn sized(w: Word) -> u8 { w.size }\n"

    def strangers(self, *pairs, file="specs/Sizes.antt"):
        return edit_names.strangers([(file, old, new) for old, new in pairs], {file: self.CODE if file.endswith(".rt") else self.DEFINITIONS})

    def test_in_sight(self):
        self.assertEqual(self.strangers(("length xs", "length (take 1 xs)")), [])
        self.assertEqual(self.strangers(("length xs", "sized (f 0) where f = λ (n : ℕ) k. n")), [])
        self.assertEqual(self.strangers(("length xs", "lib.ListN.drop 1 xs")), [])
        self.assertEqual(self.strangers(("  take}", "  take, drop}"), ("length xs", "length (drop 1 xs)")), [])
        self.assertEqual(self.strangers(("// of bytes", "fn one() { }"), ("w.size", "one()"), file="src/lib.rt"), [])
        self.assertEqual(self.strangers(("w.size", "let n = w; if true { 0x1f } else { b'x' }"), file="src/lib.rt"), [])

    def test_not_in_sight(self):
        self.assertEqual(self.strangers(("length xs", "length (drop 1 xs)")), ["drop"])  # not imported
        self.assertEqual(self.strangers(("length xs", "lenght xs")), ["lenght"])
        self.assertEqual(self.strangers(("length xs", "sums xs")), ["sums"])  # in a comment alone
        self.assertEqual(self.strangers(("w.size", "w.size_that_no_crate_has"), file="src/lib.rt"), ["size_that_no_crate_has"])


class Code(unittest.TestCase):
    def test_bodies(self):
        text = "fn f(x: u8) -> u8\n    requires* low { x } ensures { result } ensures high { y }\n{\n    x\n}\nimpl A { fn g(&self) { if a { b } } }\n"
        self.assertEqual([(f.name, text[f.start : f.end + 1].split()[1]) for f in wrong_answers.functions(text)], [("f", "x"), ("A::g", "if")])


class Errors(unittest.TestCase):
    IDLE = (
        "`f-spec`: `returns` was not admitted (it has holes)",
        "1 declaration that depends on `met`, which was not admitted, was not checked: f_spec",
        "2 declarations that depend on `walk`, which was rejected, were not checked: walks, query (via walks)",
        "`returns`: record `Rattle.a.proofs.f.Lts.View.In-After-g` has no field `if-n-lt4` (nearest: .if-n-lt5)",
        "module `Rattle.a.proofs.f` has no `Goals` that can be named from here",
        "`returns-then-n-lt4`: `goal.returns-then-n-lt4`: module `Rattle.a.proofs.f.Goals` has no `returns-then-n-lt4` that can be named from here",
        "`returns`: `drop` is not in scope",
        "1 declaration that depends on `short`, which was rejected, was not checked: returns",
        "`f-spec`: expected type `tie.Need-returns`, but this has type `tie.Need-cast`",
    )
    TELLING = (
        "`returns`: as printed, the two types differ only where one has `1` (expected) and the other has `2` (found)",
        "`fits`: `omega`: the goal does not follow from what it read",
        "`f-spec`: computed as far as they go, the two types are `a < 16` (expected) and `a < 17` (found)",
    )

    def test_named_anew(self):
        was = {"needs": [["returns", "returns-then-n-lt4"], ["returns-2", "returns"]], "places": [["Then1", "if-n-lt4", []], ["Else1", "if-n-lt4", [["true", "raw"]]]]}
        now = {"needs": [["returns", "returns-then-n-lt5"], ["returns-2", "returns"]], "places": [["Then1", "if-n-lt5", []], ["Else1", "if-n-lt5", []]]}
        names = {}
        self.assertTrue(wrong_answers.same_shape(was, now, names))
        self.assertEqual({old: new for old, new in names.items() if old != new}, {"returns-then-n-lt4": "returns-then-n-lt5", "if-n-lt4": "if-n-lt5"})
        self.assertFalse(wrong_answers.same_shape(was, now | {"needs": now["needs"][:1]}, {}))  # a goal less
        self.assertFalse(wrong_answers.same_shape(was, now | {"needs": [["returns", "returns"], ["returns-2", "a"]], "places": [["returns", "b"]] * 2}, {}))
        self.assertFalse(wrong_answers.same_shape(was, None, {}))

    def test_lines(self):
        said = wrong_answers.Said(1, "./proofs/f/Answers.antt:16:3: error: `returns`: expected type `a`\n  but this has type `b`\nsrc/lib.rt:2:1: error[type-mismatch]: no\n"
                                  "fn a::f: not proved\nfn a::g: no proof: expected answers in ./proofs/g/Answers.antt; `search` did not prove `returns`\nlogic=not-proved\n")
        self.assertEqual(said.errors, [("proofs/f/Answers.antt", 16, "`returns`: expected type `a` but this has type `b`"), ("src/lib.rt", 2, "no")])
        self.assertEqual([wrong_answers.unproved(line) for line in said.lines.values()], [None, "`search` did not prove `returns`"])
        self.assertTrue(said.reached)

    def test_idle(self):
        self.assertEqual(wrong_answers.telling([("proofs/f/Proof.antt", 1, message) for message in self.IDLE]), [])

    def test_telling(self):
        errors = [("proofs/f/Proof.antt", 1, message) for message in self.TELLING]
        self.assertEqual(wrong_answers.telling(errors), errors)


if __name__ == "__main__":
    unittest.main()
