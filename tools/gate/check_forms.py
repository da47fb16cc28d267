"""Holds document 01's "Forms we want to see" to the code: docs/DECISIONS.md, "Forms", names for each form the file and the functions or types that
have it, and each of these is there and has the shape.

Proofs do not ask for a form, so a change can lose one unseen. Nothing is written. Exits 1 where a form is missing in the table, or what a line names
does not have it. So that no test passes on everything, each is tried on the code with the shape taken away, and must fail there.
"""

import re
import sys

from paths import ROOT

DOCUMENT = ROOT / 'docs' / 'DECISIONS.md'


class Code:
    """A source file; `spoilt` replaces one text by another, wherever it stands."""

    def __init__(self, path, text):
        self.path, self.text = path, text

    def spoilt(self, old, new):
        return Code(self.path, self.text.replace(old, new))

    def function(self, name):
        """The signature and the body of a function, by the layout that `rt fmt` gives; empty where there is none."""
        found = re.search(rf'^( *)(?:pub(?:\(crate\))? )?(?:extern "C" )?fn {name}\(', self.text, re.M)
        if not found:
            return '', ''
        indent = found.group(1)
        open_, close = re.search(rf'(?: \{{|^{indent}\{{)$', self.text[found.start():], re.M), None
        if open_:
            close = re.search(rf'^{indent}\}}$', self.text[found.start() + open_.end():], re.M)
        if not close:
            return '', ''
        body = found.start() + open_.end()
        return self.text[found.start():body], self.text[body:body + close.start()]


def decoder(code, names):
    _, body = code.function('decode')
    arms = body.split('match first {', 1)[-1]
    runs = re.findall(r'^ *0x([0-9a-f]{2})\.\.=0x([0-9a-f]{2})(?: if second < 16)? =>', arms, re.M)
    covered = {code for first, last in runs for code in range(int(first, 16), int(last, 16) + 1)}
    registers = re.findall(r'^ *0x\w\w(?: \| 0x\w\w){4} =>', arms, re.M)      # nnn, 0 to 4
    return (names == ['decode'] and re.findall(r'\bmatch \w.*\{', body) == ['match first {'] and len(registers) == 4
            and covered >= set(range(0x50, 0x100)))


def wrapping(code, names):
    return names == ['tick'] and 'wrapping_add_u32(self.cycles,' in code.function('tick')[1]


def longest(code, names):
    signature, body = code.function('longest')
    calls = re.findall(r'\blongest\([^)]*\)', body)
    return names == ['longest'] and 'left: u16' in signature and len(calls) == 3 and all(call.endswith(', left - 1)') for call in calls)


def let_else(code, names):
    _, body = code.function('execute')
    return names == ['execute'] and bool(re.search(r'let Some\(\w+\) = decode\(.*\) else \{\s*self\.status\.fault = 1;', body))


METHODS = {'power.rt': ['power_on', 'reset'], 'events.rt': ['apply', 'apply_named', 'step']}


def by_value(code, names):
    signatures = [code.function(name)[0] for name in names]
    through = 'apply' not in names or 'Event::Res => self.reset()' in code.function('apply')[1]
    return names == METHODS.get(code.path.name) and through and all(re.search(r'\(\s*mut self\b', s) and '-> Answer' in s for s in signatures)


def branch(code, names):
    return names == ['Instruction', 'Condition'] and '    Branch(ProgramAddress, Condition),\n' in code.text and 'pub enum Condition {' in code.text


def readers(code, names):
    (joined, sums), (parenthesis, inner) = code.function('joined'), code.function('parenthesis')
    return (names == ['joined', 'parenthesis'] and 'depth: u8' in joined and 'depth: u8' in parenthesis
            and 'parenthesis(labels,' in sums and re.search(r'\bjoined\(labels, [\w.]+, depth - 1,', inner) is not None)


def addresses(code, names):
    return names == ['ProgramAddress', 'DataAddress'] and all(re.search(rf'^pub struct {name}\(pub u(8|16)\);$', code.text, re.M) for name in names)


def lent(code, names):
    """The record goes out by value, to a method of the machine, and what comes back is stored unless it is refused."""
    events = Code(None, (code.path.parent / 'events.rt').read_text(encoding='utf-8'))

    def thin(name):
        signature, body = code.function(name)
        called = re.search(r'= (\w+)\(\*machine,', body)
        inner = events.function(called.group(1)) if called else ('', '')
        return ('machine: &mut Machine' in signature and len(body.split(';')) <= 4
                and 'machine: Machine' in inner[0] and re.search(r'\bmachine\.(power_on|apply_named)\(', inner[1])
                and re.search(r'if (\w+)\.refusal == 0 \{\s*\*machine = \1\.machine;\s*\}\s*\1\.refusal', body))
    return names == ['ht1130_power_on', 'ht1130_apply'] and all(thin(name) for name in names)


# Document 01's words, how the shape is seen, the lines of the table that name it, and what takes the shape away.
FORMS = [
    ('decoder as a match over byte ranges and patterns', decoder, 1, ('0xa0..=0xa7 =>', '0xa0 =>'), ('0x10 | 0x12 |', '0x10 =>'), ('match first {', 'match first / 8 {')),
    ("u32 cycle count advanced by the language's wrapping add", wrapping, 1, ('wrapping_add_u32(self.cycles, ', 'sum(self.cycles, ')),
    ('recursive longest-path walk, the count of remaining pairs as measure', longest, 1, ('left - 1', 'left')),
    ("decoder's answer taken apart by let .. else, the else branch setting the fault", let_else, 1, ('else {\n            self.status.fault = 1', 'else {\n            self.status.fault = 2')),
    ('method with mut self that hands the machine back, also for reset and events', by_value, 2, ('mut self', 'self'), ('-> Answer', '-> Machine')),
    ('instruction enum whose branch case holds a condition enum and a target', branch, 1, ('Branch(ProgramAddress, Condition)', 'Branch(ProgramAddress, u8)')),
    ('operand reader and parenthesis reader call each other, remaining depth and text falling', readers, 1, ('depth - 1', 'depth')),
    ("tuple structs for the two address kinds, from the sheet's program counter and data pointer", addresses, 1, ('pub struct DataAddress(pub u8);', 'pub struct DataAddress { pub at: u8 }')),
    ('machine lent by &mut, one or two thin wrappers over the by-value event function', lent, 1, ('*machine = ', 'machine.cpu = '), ('(*machine,', '(machine.cpu,')),
]


def table():
    """The rows `| WORDS | FILE: FUNCTIONS |` of the table, in turn."""
    part = DOCUMENT.read_text(encoding='utf-8').split('\n## Forms\n', 1)[1].split('\n## ', 1)[0]
    rows = re.findall(r'^\| "([^"]+)" \| `([^`]+)`: ([^|]*) \|', part, re.M)
    return [(words, file, re.findall(r'`(\w+)`', names)) for words, file, names in rows]


def wrong():
    rows = table()
    for words, shape, count, *spoils in FORMS:
        named = [(file, names) for said, file, names in rows if said == words]
        if len(named) != count:
            yield f'docs/DECISIONS.md, Forms, has {len(named)} lines of "{words}", not {count}'
        for file, names in named:
            path = ROOT / file
            code = Code(path, path.read_text(encoding='utf-8')) if path.is_file() else Code(path, '')
            if not shape(code, names):
                yield f'{file}: {", ".join(names)}: not "{words}"'
                continue
            for old, new in spoils:
                if old not in code.text or shape(code.spoilt(old, new), names):
                    yield f'the test of "{words}" does not see {old!r} become {new!r}'
    for words, _, _ in rows:
        if words not in [form[0] for form in FORMS]:
            yield f'docs/DECISIONS.md, Forms: "{words}" is none of document 01\'s'


def main():
    found = list(wrong())
    for text in found:
        print(f'check_forms: {text}')
    if found:
        sys.exit(1)
    print(f'check_forms: {len(FORMS)} forms are where docs/DECISIONS.md says')


if __name__ == '__main__':
    main()
