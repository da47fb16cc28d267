"""Which names that an edit writes are nowhere in sight: neither in the edited file, its imports among it, nor bound by the edit itself.

It reads words and not the language: a word behind `.` or `::` belongs to something else and passes where any file has it, and so do a
library's whole name and a word that another declaration of the file has. It is for the slip that costs a whole run of the gate: a name
that the file does not import, or no longer.
"""

import functools
import glob
import re

START, WITHIN = r"(?<![\w'·«])[^\W\d]", r"[\w'·-]*"
NAME = re.compile(rf"{START}{WITHIN}")
LITERALS = re.compile(r"""b?"(?:\\.|[^"\\])*"|b'(?:\\.|[^'\\])'""")
COMMENT = {".rt": re.compile(r"//[^\n]*|/\*.*?\*/", re.S), "antt": re.compile(r"(?<!\S)--[^\n]*")}
# words of the two languages, antt's tactics among them, and what no file imports
KNOWN = set(
    "λ in let where with record data abbrev use as of mod pub if else match return while loop for break continue fn mut true false"
    " omega rw cc search absurd tt u8 u16 u32 u64 usize i8 i16 i32 i64 isize bool Some None Ok Err _".split()
)


def plain(file, text):
    """The text without comments, strings and bytes."""
    return LITERALS.sub(" ", COMMENT[file[-4:] if file.endswith("antt") else ".rt"].sub(" ", text))


@functools.cache
def anywhere():
    """The words of all crates."""
    found = set()
    for path in glob.glob("crates/*/s*/**/*.rt", recursive=True) + glob.glob("crates/*/*s/**/*.antt", recursive=True):
        with open(path, encoding="utf-8") as file:
            found |= set(NAME.findall(file.read()))
    return found


def importing(text, at):
    """Whether this place of a file stands in a `use` item, which goes on over indented lines."""
    starts = [match.start() for match in re.finditer(r"^\S", text, re.M) if match.start() <= at]
    return bool(starts) and text.startswith("use ", starts[-1])


def bound(file, text):
    """The names that the text binds or declares: by `let`, `fn` or `λ`, before `:` or `=`, in a pattern, on the left of a clause, in `use`."""
    found = set(re.findall(rf"\b(?:let (?:mut )?|fn )({START}{WITHIN})", text))
    found |= {name for part in re.findall(r"λ([^.]*)\.", text) for name in NAME.findall(re.sub(r":[^)]*", "", part))}
    found |= set(re.findall(rf"({START}{WITHIN})\s*(?::(?!:)|=(?![=>]))", text))
    found |= {name for part in re.findall(r"\(([^()]*)\)\s*=>", text) for name in NAME.findall(part)}
    if file.endswith(".antt"):
        found |= {name for part in re.findall(r"^([^\s=(][^=]*?) = ", text) for name in NAME.findall(part)}
    return found


def strangers(pairs, texts):
    """`pairs` has an edit's files, old and new texts, `texts` the files as they are: the words that are nowhere in sight."""
    pairs = [(file, importing(texts[file], texts[file].find(old)), plain(file, new)) for file, old, new in pairs]
    sight = {file: KNOWN | set(NAME.findall(plain(file, text))) for file, text in texts.items()}
    for file, imported, new in pairs:
        sight[file] |= set(NAME.findall(new)) if imported else bound(file, new)
    found = []
    for file, _, new in pairs:
        for match in NAME.finditer(new):
            name, member = match.group(), new[: match.start()].endswith((".", "::"))
            whole = file.endswith(".antt") and re.match(r"\.\w", new[match.end() :])
            if name not in sight[file] and not whole and not (member and name in anywhere()):
                found.append(name)
    return sorted(set(found))
