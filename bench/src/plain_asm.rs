//! A plain assembler, written from the data sheet's summary and document 02 alone. It knows
//! nothing of the proved library: the two are compared.

use crate::plain::{Mask, Refusal, MASK};
use std::collections::{HashMap, HashSet};
use std::ops::Range;
use std::sync::LazyLock;

/// The most bytes of a text.
pub const TEXT: usize = 65535;
/// How deep parentheses may nest.
pub const DEPTH: u32 = 16;
/// The largest number.
pub const NUMBER: i64 = 65535;

const NOP: u8 = 0x3E;

/// A refused text: the refusal, and its line from 1; 0 where no line is to blame.
#[derive(Clone, Copy, PartialEq, Eq, Debug)]
pub struct TextRefusal {
    pub refusal: Refusal,
    pub line: u32,
}

/// Where a line's operand goes.
#[derive(Clone, Copy, PartialEq, Eq, Debug)]
pub enum Field {
    /// There is none.
    None,
    /// It is the next address.
    Org,
    /// The low nibble of the last byte.
    Nibble,
    /// The last byte.
    Byte,
    /// The low nibble to the first byte, the high one to the second.
    Pair,
    /// Twelve bits.
    Address,
    /// Eleven bits of an address; the moved PC has the other.
    Branch,
}

impl Field {
    /// The largest value that fits; the least is 0.
    pub fn most(self) -> i64 {
        match self {
            Field::None => 0,
            Field::Nibble => 0xF,
            Field::Byte | Field::Pair => 0xFF,
            Field::Org | Field::Address | Field::Branch => 0xFFF,
        }
    }
}

/// A line of the summary: its words and signs with # for the operand, its bytes where that is 0.
pub struct Form {
    pub text: &'static str,
    pub code: &'static [u8],
    pub field: Field,
}

const fn form(text: &'static str, code: &'static [u8], field: Field) -> Form {
    Form { text, code, field }
}

/// The lines in the summary's order, and ORG.
pub static FORMS: [Form; 97] = [
    form("ADD A,[R1R0]", &[0x09], Field::None),
    form("ADC A,[R1R0]", &[0x08], Field::None),
    form("SUB A,[R1R0]", &[0x0B], Field::None),
    form("SBC A,[R1R0]", &[0x0A], Field::None),
    form("ADD A,#", &[0x40, 0], Field::Nibble),
    form("SUB A,#", &[0x41, 0], Field::Nibble),
    form("DAA", &[0x36], Field::None),
    form("AND A,[R1R0]", &[0x1A], Field::None),
    form("OR A,[R1R0]", &[0x1C], Field::None),
    form("XOR A,[R1R0]", &[0x1B], Field::None),
    form("AND [R1R0],A", &[0x1D], Field::None),
    form("OR [R1R0],A", &[0x1F], Field::None),
    form("XOR [R1R0],A", &[0x1E], Field::None),
    form("AND A,#", &[0x42, 0], Field::Nibble),
    form("OR A,#", &[0x44, 0], Field::Nibble),
    form("XOR A,#", &[0x43, 0], Field::Nibble),
    form("INC A", &[0x31], Field::None),
    form("INC R0", &[0x10], Field::None),
    form("INC R1", &[0x12], Field::None),
    form("INC R2", &[0x14], Field::None),
    form("INC R3", &[0x16], Field::None),
    form("INC R4", &[0x18], Field::None),
    form("INC [R1R0]", &[0x0C], Field::None),
    form("INC [R3R2]", &[0x0E], Field::None),
    form("DEC A", &[0x3F], Field::None),
    form("DEC R0", &[0x11], Field::None),
    form("DEC R1", &[0x13], Field::None),
    form("DEC R2", &[0x15], Field::None),
    form("DEC R3", &[0x17], Field::None),
    form("DEC R4", &[0x19], Field::None),
    form("DEC [R1R0]", &[0x0D], Field::None),
    form("DEC [R3R2]", &[0x0F], Field::None),
    form("MOV A,R0", &[0x21], Field::None),
    form("MOV A,R1", &[0x23], Field::None),
    form("MOV A,R2", &[0x25], Field::None),
    form("MOV A,R3", &[0x27], Field::None),
    form("MOV A,R4", &[0x29], Field::None),
    form("MOV R0,A", &[0x20], Field::None),
    form("MOV R1,A", &[0x22], Field::None),
    form("MOV R2,A", &[0x24], Field::None),
    form("MOV R3,A", &[0x26], Field::None),
    form("MOV R4,A", &[0x28], Field::None),
    form("MOV A,[R1R0]", &[0x04], Field::None),
    form("MOV A,[R3R2]", &[0x06], Field::None),
    form("MOV [R1R0],A", &[0x05], Field::None),
    form("MOV [R3R2],A", &[0x07], Field::None),
    form("MOV A,#", &[0x70], Field::Nibble),
    form("MOV R1R0,#", &[0x50, 0], Field::Pair),
    form("MOV R3R2,#", &[0x60, 0], Field::Pair),
    form("MOV R4,#", &[0x46, 0], Field::Nibble),
    form("RL A", &[0x01], Field::None),
    form("RLC A", &[0x03], Field::None),
    form("RR A", &[0x00], Field::None),
    form("RRC A", &[0x02], Field::None),
    form("IN A,PM", &[0x32], Field::None),
    form("IN A,PS", &[0x33], Field::None),
    form("IN A,PP", &[0x34], Field::None),
    form("OUT PA,A", &[0x30], Field::None),
    form("JMP #", &[0xE0, 0], Field::Address),
    form("JC #", &[0xC0, 0], Field::Branch),
    form("JNC #", &[0xC8, 0], Field::Branch),
    form("JTMR #", &[0xD0, 0], Field::Branch),
    form("JA0 #", &[0x80, 0], Field::Branch),
    form("JA1 #", &[0x88, 0], Field::Branch),
    form("JA2 #", &[0x90, 0], Field::Branch),
    form("JA3 #", &[0x98, 0], Field::Branch),
    form("JZ A,#", &[0xB0, 0], Field::Branch),
    form("JNZ A,#", &[0xB8, 0], Field::Branch),
    form("JNZ R0,#", &[0xA0, 0], Field::Branch),
    form("JNZ R1,#", &[0xA8, 0], Field::Branch),
    form("JNZ R4,#", &[0xD8, 0], Field::Branch),
    form("CALL #", &[0xF0, 0], Field::Address),
    form("RET", &[0x2E], Field::None),
    form("RETI", &[0x2F], Field::None),
    form("CLC", &[0x2A], Field::None),
    form("STC", &[0x2B], Field::None),
    form("EI", &[0x2C], Field::None),
    form("DI", &[0x2D], Field::None),
    form("NOP", &[NOP], Field::None),
    form("TIMER #", &[0x47, 0], Field::Byte),
    form("TIMER ON", &[0x38], Field::None),
    form("TIMER OFF", &[0x39], Field::None),
    form("MOV A,TMRL", &[0x3A], Field::None),
    form("MOV A,TMRH", &[0x3B], Field::None),
    form("MOV TMRL,A", &[0x3C], Field::None),
    form("MOV TMRH,A", &[0x3D], Field::None),
    form("READ R4A", &[0x4C], Field::None),
    form("READ MR0A", &[0x4E], Field::None),
    form("READF R4A", &[0x4D], Field::None),
    form("READF MR0A", &[0x4F], Field::None),
    form("SOUND #", &[0x45, 0], Field::Nibble),
    form("SOUND A", &[0x4B], Field::None),
    form("SOUND ONE", &[0x48], Field::None),
    form("SOUND LOOP", &[0x49], Field::None),
    form("SOUND OFF", &[0x4A], Field::None),
    form("HALT", &[0x37, 0x3E], Field::None),
    form("ORG #", &[], Field::Org),
];

impl Form {
    /// Writes the bytes with an operand that fits.
    pub fn write(&self, operand: i64, out: &mut [u8]) {
        out.copy_from_slice(self.code);
        let (high, low) = ((operand >> 8) as u8, operand as u8);
        match self.field {
            Field::None | Field::Org => {}
            Field::Nibble | Field::Byte => out[out.len() - 1] |= low,
            Field::Pair => {
                out[0] |= low & 15;
                out[1] |= low >> 4;
            }
            Field::Address => {
                out[0] |= high;
                out[1] |= low;
            }
            Field::Branch => {
                out[0] |= high & 7;
                out[1] |= low;
            }
        }
    }
}

static BY_TEXT: LazyLock<HashMap<&[u8], &Form>> = LazyLock::new(|| {
    FORMS
        .iter()
        .map(|form| (form.text.as_bytes(), form))
        .collect()
});

/// The words of the forms.
pub static FIXED: LazyLock<HashSet<&[u8]>> = LazyLock::new(|| {
    FORMS
        .iter()
        .flat_map(|form| form.text.as_bytes().split(|&byte| !in_word(byte)))
        .filter(|word| !word.is_empty())
        .collect()
});

fn in_word(byte: u8) -> bool {
    byte.is_ascii_uppercase() || byte.is_ascii_digit()
}

#[derive(Clone, Copy, PartialEq, Eq, Debug)]
enum Token<'a> {
    Fixed(&'a [u8]),
    Label(&'a [u8]),
    Number(i64),
    /// A word that starts with a digit and is no number.
    Wrong,
    /// Any other byte but a space.
    Sign(u8),
    End,
}

/// A line, and the token that it starts with.
struct Tokens<'a> {
    next: Token<'a>,
    rest: &'a [u8],
}

impl<'a> Tokens<'a> {
    fn new(line: &'a [u8]) -> Tokens<'a> {
        let mut tokens = Tokens {
            next: Token::End,
            rest: line,
        };
        tokens.take();
        tokens
    }

    fn take(&mut self) -> Token<'a> {
        let start = self.rest.iter().position(|&byte| byte != b' ');
        let line = &self.rest[start.unwrap_or(self.rest.len())..];
        let length = line.iter().take_while(|&&byte| in_word(byte)).count();
        let (next, length) = match line.first() {
            None => (Token::End, 0),
            Some(_) if length > 0 => (word(&line[..length]), length),
            Some(&byte) => (Token::Sign(byte), 1),
        };
        self.rest = &line[length..];
        std::mem::replace(&mut self.next, next)
    }
}

fn word(word: &[u8]) -> Token<'_> {
    if word[0].is_ascii_digit() {
        number(word).map_or(Token::Wrong, Token::Number)
    } else if FIXED.contains(word) {
        Token::Fixed(word)
    } else {
        Token::Label(word)
    }
}

fn number(word: &[u8]) -> Option<i64> {
    let (digits, base) = match word.strip_suffix(b"H") {
        Some(digits) => (digits, 16),
        None => (word, 10),
    };
    digits.iter().try_fold(0, |value, &byte| {
        let value = base as i64 * value + (byte as char).to_digit(base)? as i64;
        (value <= NUMBER).then_some(value)
    })
}

/// A line that is not blank.
struct Line {
    number: u32,
    label: Option<usize>,
    form: &'static Form,
    /// The operand is the sum of its numbers, and of its labels as often as `uses` says.
    numbers: i64,
    uses: Range<usize>,
}

/// The lines as they are read, labels by number.
#[derive(Default)]
struct Program<'a> {
    lines: Vec<Line>,
    labels: HashMap<&'a [u8], usize>,
    /// For each label the line that first defines it, in `lines`.
    defined: Vec<Option<usize>>,
    /// Labels in operands: 1 where added, -1 where taken away.
    uses: Vec<(i64, usize)>,
    /// The words and signs of a line.
    shape: Vec<u8>,
}

impl<'a> Program<'a> {
    /// Reads one line, or none where it cannot be read.
    fn read(&mut self, number: u32, line: &'a [u8]) -> Option<()> {
        let mut tokens = Tokens::new(line);
        if tokens.next == Token::End {
            return Some(());
        }
        let mut label = None;
        if let Token::Label(name) = tokens.next {
            tokens.take();
            if tokens.take() != Token::Sign(b':') {
                return None;
            }
            let id = self.label(name);
            self.defined[id].get_or_insert(self.lines.len());
            label = Some(id);
        }
        self.shape.clear();
        loop {
            match tokens.next {
                Token::Fixed(word) => {
                    self.space();
                    self.shape.extend(word);
                }
                Token::Sign(b'[') => {
                    self.space();
                    self.shape.push(b'[');
                }
                Token::Sign(sign @ (b',' | b']')) => self.shape.push(sign),
                _ => break,
            }
            tokens.take();
        }
        let first = self.uses.len();
        let mut numbers = 0;
        if tokens.next != Token::End {
            self.space();
            self.shape.push(b'#');
            numbers = self.operand(&mut tokens, 1, 0)?;
        }
        if tokens.next != Token::End {
            return None;
        }
        self.lines.push(Line {
            number,
            label,
            form: BY_TEXT.get(&self.shape[..])?,
            numbers,
            uses: first..self.uses.len(),
        });
        Some(())
    }

    /// Where the summary has one: between a word and what follows it but `,` and `]`.
    fn space(&mut self) {
        if self.shape.last().is_some_and(|&byte| in_word(byte)) {
            self.shape.push(b' ');
        }
    }

    fn label(&mut self, name: &'a [u8]) -> usize {
        let fresh = self.defined.len();
        let id = *self.labels.entry(name).or_insert(fresh);
        if id == fresh {
            self.defined.push(None);
        }
        id
    }

    /// Terms, + and - between them; all is taken away where `sign` is -1.
    fn operand(&mut self, tokens: &mut Tokens<'a>, sign: i64, depth: u32) -> Option<i64> {
        let mut sum = self.term(tokens, sign, depth)?;
        loop {
            let sign = match tokens.next {
                Token::Sign(b'+') => sign,
                Token::Sign(b'-') => -sign,
                _ => return Some(sum),
            };
            tokens.take();
            sum += self.term(tokens, sign, depth)?;
        }
    }

    fn term(&mut self, tokens: &mut Tokens<'a>, sign: i64, depth: u32) -> Option<i64> {
        match tokens.take() {
            Token::Number(value) => Some(sign * value),
            Token::Label(name) => {
                let id = self.label(name);
                self.uses.push((sign, id));
                Some(0)
            }
            Token::Sign(b'(') if depth < DEPTH => {
                let sum = self.operand(tokens, sign, depth + 1)?;
                (tokens.take() == Token::Sign(b')')).then_some(sum)
            }
            _ => None,
        }
    }

    /// Whether the labels of a line are as they should be.
    fn labels_ok(&self, at: usize) -> bool {
        let line = &self.lines[at];
        let above = if line.form.field == Field::Org {
            at
        } else {
            self.lines.len()
        };
        line.label
            .is_none_or(|label| self.defined[label] == Some(at))
            && self.uses[line.uses.clone()]
                .iter()
                .all(|&(_, label)| self.defined[label].is_some_and(|line| line < above))
    }

    fn value(&self, line: &Line, addresses: &[i64]) -> i64 {
        let labels = self.uses[line.uses.clone()].iter();
        line.numbers
            + labels
                .map(|&(sign, label)| sign * addresses[label])
                .sum::<i64>()
    }
}

/// Assembles a text. A refusal leaves `out` as it was.
pub fn assemble(text: &[u8], out: &mut [u8]) -> Result<(), TextRefusal> {
    let refuse = |refusal, line| Err(TextRefusal { refusal, line });
    if out.len() != MASK {
        return refuse(2, 0);
    }
    if text.len() > TEXT {
        return refuse(12, 1);
    }
    let mut program = Program::default();
    for (number, line) in (1..).zip(text.split(|&byte| byte == b'\n')) {
        if program.read(number, line).is_none() {
            return refuse(12, number);
        }
    }
    for (at, line) in program.lines.iter().enumerate() {
        if !program.labels_ok(at) {
            return refuse(14, line.number);
        }
    }

    // Where each line stands, then what it holds.
    let mut addresses = vec![0; program.defined.len()];
    let mut places = Vec::with_capacity(program.lines.len());
    let mut written = [false; MASK];
    let mut next = 0;
    for line in &program.lines {
        if line.form.field == Field::Org {
            next = program.value(line, &addresses);
            if !(0..=line.form.field.most()).contains(&next) {
                return refuse(13, line.number);
            }
        }
        if let Some(label) = line.label {
            addresses[label] = next;
        }
        let place = next as usize..next as usize + line.form.code.len();
        match written.get_mut(place.clone()) {
            Some(bytes) if !bytes.contains(&true) => bytes.fill(true),
            _ => return refuse(13, line.number),
        }
        next = place.end as i64;
        places.push(place);
    }
    let mut mask: Mask = [NOP; MASK];
    for (line, place) in program.lines.iter().zip(places) {
        let value = program.value(line, &addresses);
        let fits = (0..=line.form.field.most()).contains(&value)
            && (line.form.field != Field::Branch || (value ^ place.end as i64) & 0x800 == 0);
        if !fits {
            return refuse(13, line.number);
        }
        line.form.write(value, &mut mask[place]);
    }
    out.copy_from_slice(&mask);
    Ok(())
}

#[cfg(test)]
mod tests {
    use super::*;
    use crate::plain::decode;
    use crate::texts::{mask_of, ACCEPTED, REFUSED};

    #[test]
    fn given_texts() {
        for (text, code) in ACCEPTED {
            let mut out = [0; MASK];
            assert_eq!(assemble(text.as_bytes(), &mut out), Ok(()), "{text}");
            assert!(out == mask_of(code), "{text}");
        }
        for (text, refusal, line) in REFUSED {
            let mut out = [0xA5; MASK];
            let refused = Err(TextRefusal { refusal, line });
            assert_eq!(assemble(text.as_bytes(), &mut out), refused, "{text}");
            assert_eq!(out, [0xA5; MASK], "{text}");
        }
    }

    #[test]
    fn lengths() {
        let spaces = [b' '; TEXT + 1];
        let refused = |refusal, line| Err(TextRefusal { refusal, line });
        assert_eq!(assemble(&spaces[1..], &mut [0; MASK]), Ok(()));
        assert_eq!(assemble(&spaces, &mut [0; MASK]), refused(12, 1));
        assert_eq!(assemble(&spaces, &mut [0; MASK - 1]), refused(2, 0));
        assert_eq!(assemble(b"?", &mut [0; MASK + 1]), refused(2, 0));
    }

    /// The codes are the ones that the plain engine reads: every form of it, with every operand.
    #[test]
    fn forms_read_back() {
        let mut met = HashSet::new();
        for form in &FORMS {
            for operand in 0..=form.field.most() {
                let mut bytes = [0; 2];
                form.write(operand, &mut bytes[..form.code.len()]);
                let Some(read) = decode(bytes[0], bytes[1]).filter(|_| form.field != Field::Org)
                else {
                    continue;
                };
                assert_eq!(read.length as usize, form.code.len(), "{}", form.text);
                let (held, fixed) = match form.field {
                    Field::None => (0, (read.a, read.b)),
                    Field::Nibble | Field::Byte => (read.a as i64, (0, read.b)),
                    Field::Branch => (read.b as i64 | operand & 0x800, (read.a, 0)),
                    _ => (read.b as i64, (read.a, 0)),
                };
                assert_eq!(held, operand, "{}", form.text);
                met.insert((read.form, fixed));
            }
        }
        let forms: HashSet<u8> = met.iter().map(|(form, _)| *form).collect();
        assert_eq!((met.len(), forms.len()), (FORMS.len() - 1, 60));
    }

    #[test]
    fn fixed_words() {
        let mut words: Vec<_> = FIXED
            .iter()
            .map(|word| String::from_utf8_lossy(word))
            .collect();
        words.sort();
        let expected = "A ADC ADD AND CALL CLC DAA DEC DI EI HALT IN INC JA0 JA1 JA2 JA3 JC JMP \
            JNC JNZ JTMR JZ LOOP MOV MR0A NOP OFF ON ONE OR ORG OUT PA PM PP PS R0 R1 R1R0 R2 R3 \
            R3R2 R4 R4A READ READF RET RETI RL RLC RR RRC SBC SOUND STC SUB TIMER TMRH TMRL XOR";
        assert_eq!(words.join(" "), expected);
    }
}
