//! Texts to assemble: given ones with their answers, random ones good and damaged, and ones that
//! take long.

use crate::plain::{Mask, MASK};
use crate::plain_asm::{Field, Form, DEPTH, FIXED, FORMS, NUMBER, TEXT};
use crate::prng::Prng;
use std::collections::HashSet;

/// A text as its lines, without LF.
pub type Lines = Vec<Vec<u8>>;
/// A line as its words and signs.
type Tokens = Vec<Vec<u8>>;

pub fn joined(lines: &Lines) -> Vec<u8> {
    lines.join(&b'\n')
}

fn pick<'a, T>(prng: &mut Prng, from: &'a [T]) -> &'a T {
    &from[prng.below(from.len() as u64) as usize]
}

fn one_in(prng: &mut Prng, n: u64) -> bool {
    prng.below(n) == 0
}

// Given texts

/// Bytes at an address, 3Eh elsewhere.
type Code = &'static [(usize, &'static [u8])];

/// Texts that are accepted, and their masks.
pub const ACCEPTED: [(&str, Code); 20] = [
    ("", &[]),
    ("\n\n  \n", &[]),
    ("NOP\nEI", &[(1, &[0x2C])]),
    (" ADD  A ,[ R1R0 ]  \nADD A,[R1R0]", &[(0, &[0x09, 0x09])]),
    ("AND[R1R0],A\nINC [R3R2]", &[(0, &[0x1D, 0x0E])]),
    ("L:JMP L", &[(0, &[0xE0, 0x00])]),
    ("NOP\nL : JMP L+0FFEH", &[(1, &[0xEF, 0xFF])]),
    ("ORG 123H\nL: CALL L", &[(0x123, &[0xF1, 0x23])]),
    ("NOP\nL: ORG 20H\nORG L+1\nJMP L", &[(0x21, &[0xE0, 0x20])]),
    // Low nibble in the first byte
    (
        "MOV R1R0,0A5H\nMOV R3R2,90",
        &[(0, &[0x55, 0x0A, 0x6A, 0x05])],
    ),
    (
        "MOV A,15\nMOV R4,9\nSOUND 3",
        &[(0, &[0x7F, 0x46, 0x09, 0x45, 0x03])],
    ),
    (
        "HALT\nTIMER 255\nTIMER ON",
        &[(0, &[0x37, 0x3E, 0x47, 0xFF, 0x38])],
    ),
    // Left to right, and below 0 on the way
    (
        "MOV A,10-5-3\nMOV A,10-(5-3)\nMOV A,0-7+9",
        &[(0, &[0x72, 0x78, 0x72])],
    ),
    ("MOV A,((((((((((((((((5))))))))))))))))", &[(0, &[0x75])]),
    (
        "MOV A,000000000000000000005\nMOV A,0000FH",
        &[(0, &[0x75, 0x7F])],
    ),
    ("MOV A,65535-0FFFEH", &[(0, &[0x71])]),
    // Nearly fixed words
    (
        "R5:JMP JA4\nJA4:JMP R1R1\nR1R1:JMP R5",
        &[(0, &[0xE0, 0x02, 0xE0, 0x04, 0xE0, 0x00])],
    ),
    // Across bit 11 by the moved PC: from 7FEh up, and from FFEh to the first half
    (
        "ORG 7FEH\nJC 800H\nORG 7FCH\nJC 7FFH",
        &[(0x7FC, &[0xC7, 0xFF, 0xC0, 0x00])],
    ),
    ("ORG 0FFEH\nJNZ R4,1", &[(0xFFE, &[0xD8, 0x01])]),
    (
        "ORG 4095\nEI\n\nORG 0\nDI",
        &[(0, &[0x2D]), (0xFFF, &[0x2C])],
    ),
];

/// Texts that are refused, with number and line.
pub const REFUSED: [(&str, u8, u32); 81] = [
    ("NOP\nnop", 12, 2),
    ("NOP\n\n\n;", 12, 4),
    ("NOP\r\nNOP", 12, 1),
    ("\tNOP", 12, 1),
    ("NOP\0", 12, 1),
    ("ADDA,5", 12, 1),
    ("ADD A 5", 12, 1),
    ("ADD A,", 12, 1),
    ("ADD A,5,", 12, 1),
    ("ADD A,[R3R2]", 12, 1),
    ("ADD A,A", 12, 1),
    ("NOP NOP", 12, 1),
    ("JNZ R2,0", 12, 1),
    ("JZ R0,0", 12, 1),
    ("JA4 0", 12, 1),
    ("JA 0 0", 12, 1),
    ("INC R5", 12, 1),
    ("IN A,PA", 12, 1),
    ("TIMER", 12, 1),
    ("SOUND", 12, 1),
    ("JMP", 12, 1),
    ("ORG", 12, 1),
    ("L:", 12, 1),
    ("L", 12, 1),
    (":NOP", 12, 1),
    ("L::NOP", 12, 1),
    ("L:L:NOP", 12, 1),
    ("L L:NOP", 12, 1),
    ("MOV:NOP", 12, 1),
    ("A:NOP", 12, 1),
    ("R1R0:NOP", 12, 1),
    ("ORG:NOP", 12, 1),
    ("5:NOP", 12, 1),
    ("JMP A", 12, 1),
    ("JMP ON", 12, 1),
    ("JMP R4+1", 12, 1),
    ("JMP 65536", 12, 1),
    ("JMP 10000H", 12, 1),
    ("JMP 12B", 12, 1),
    ("JMP 0G", 12, 1),
    ("JMP 0GH", 12, 1),
    ("JMP 0FH0", 12, 1),
    ("JMP 5HH", 12, 1),
    ("JMP -1", 12, 1),
    ("JMP +1", 12, 1),
    ("JMP 1+", 12, 1),
    ("JMP 1++1", 12, 1),
    ("JMP 1 1", 12, 1),
    ("JMP ()", 12, 1),
    ("JMP (1", 12, 1),
    ("JMP 1)", 12, 1),
    ("JMP (1)(1)", 12, 1),
    ("JMP [1]", 12, 1),
    ("JMP (((((((((((((((((1)))))))))))))))))", 12, 1),
    // 12 before 14 before 13
    ("ORG 4096\nJMP L\n?", 12, 3),
    ("ORG 4096\nMOV A,16\nJMP L", 14, 3),
    ("MOV A,16\nORG 4096", 13, 2),
    ("JMP L", 14, 1),
    ("L:NOP\nL:NOP\nL:NOP", 14, 2),
    ("L:NOP\nNOP\nL:NOP", 14, 3),
    ("L:ORG L", 14, 1),
    ("ORG L\nL:NOP", 14, 1),
    ("JMP M\nL:NOP\nL:NOP\nM:ORG N", 14, 3),
    ("ORG 0-1", 13, 1),
    ("ORG 4095\nNOP\nNOP", 13, 3),
    ("ORG 4095\nHALT", 13, 2),
    ("NOP\nNOP\nORG 1\nNOP", 13, 4),
    ("HALT\nORG 1\n\nNOP", 13, 4),
    ("ORG 1\nNOP\nORG 0\nHALT", 13, 4),
    ("MOV A,0-1", 13, 1),
    ("MOV A,16", 13, 1),
    ("ADD A,16", 13, 1),
    ("MOV R4,16", 13, 1),
    ("SOUND 16", 13, 1),
    ("MOV R3R2,256", 13, 1),
    ("JMP 4096", 13, 1),
    ("CALL 4096", 13, 1),
    ("JC 4096", 13, 1),
    ("MOV R1R0,255\nTIMER 256", 13, 2),
    ("ORG 7FDH\nJC 800H", 13, 2),
    ("ORG 0FFEH\nJA0 0FFEH", 13, 2),
];

pub fn mask_of(code: Code) -> Mask {
    let mut mask = [0x3E; MASK];
    for (at, bytes) in code {
        mask[*at..at + bytes.len()].copy_from_slice(bytes);
    }
    mask
}

// Tokens

/// A value as a number, in one of its spellings.
fn numeral(prng: &mut Prng, value: i64) -> Vec<u8> {
    let zeros = "0".repeat(*pick(prng, &[0, 0, 0, 0, 1, 2, 30]));
    let hexadecimal = format!("{value:X}H");
    let start = if hexadecimal.starts_with(|c: char| c.is_ascii_digit()) {
        ""
    } else {
        "0"
    };
    match prng.below(2) {
        0 => format!("{zeros}{value}"),
        _ => format!("{zeros}{start}{hexadecimal}"),
    }
    .into_bytes()
}

/// Words that are nearly fixed, or nearly numbers, and labels all the same.
const NEARLY: [&str; 24] = [
    "AA", "B", "H", "FFH", "R", "R5", "R10", "R1R", "R1R1", "R2R3", "JA", "JA4", "JN", "MOVE",
    "MO", "ORGA", "OR1", "ADDA", "P", "PB", "TMR", "ONO", "READ1", "TIMERON",
];

fn label(prng: &mut Prng) -> Vec<u8> {
    const LETTERS: &[u8] = b"ABCDEFGHIJKLMNOPQRSTUVWXYZ0123456789";
    loop {
        let name = match prng.below(6) {
            0 => pick(prng, &NEARLY).as_bytes().to_vec(),
            1 => format!("LABEL{}", prng.below(1000)).into_bytes(),
            2 => format!("{}{}", "COMMON".repeat(8), prng.below(1000)).into_bytes(),
            n => {
                let more = (0..prng.below(n)).map(|_| *pick(prng, LETTERS));
                let more: Vec<u8> = more.collect();
                [&[*pick(prng, &LETTERS[..26])], &more[..]].concat()
            }
        };
        if !FIXED.contains(&name[..]) {
            return name;
        }
    }
}

/// Labels that are all different.
fn labels(prng: &mut Prng, count: usize) -> Vec<Vec<u8>> {
    let mut known = HashSet::new();
    let fresh = || loop {
        let name = label(prng);
        if known.insert(name.clone()) {
            return name;
        }
    };
    std::iter::repeat_with(fresh).take(count).collect()
}

/// The words and signs of a text such as a form's; # is one too.
fn tokens(text: &str) -> Tokens {
    let mut tokens = Tokens::new();
    let mut in_word = false;
    for byte in text.bytes() {
        let word = byte.is_ascii_alphanumeric();
        match tokens.last_mut() {
            Some(last) if word && in_word => last.push(byte),
            _ if byte != b' ' => tokens.push(vec![byte]),
            _ => {}
        }
        in_word = word;
    }
    tokens
}

/// Words and signs with spaces between them, some of them more than they need.
fn spaced(prng: &mut Prng, tokens: &Tokens) -> Vec<u8> {
    let chance = *pick(prng, &[2, 4, 1000]);
    let mut line = Vec::new();
    for token in tokens {
        let ends_in_word = line.last().is_some_and(u8::is_ascii_alphanumeric);
        if ends_in_word && token[0].is_ascii_alphanumeric() {
            line.push(b' ');
        }
        while one_in(prng, chance) {
            line.push(b' ');
        }
        line.extend(token);
    }
    while one_in(prng, chance) {
        line.push(b' ');
    }
    line
}

/// A label's name and address.
type Known<'a> = (&'a [u8], i64);

/// An operand of this value, to stand in so many parentheses.
fn operand(prng: &mut Prng, value: i64, known: &[Known], depth: u32) -> Tokens {
    let mut tokens = Tokens::new();
    let mut sum = 0;
    let terms = *pick(prng, &[0, 0, 0, 1, 2, 3]);
    for _ in 0..terms {
        let minus = !tokens.is_empty() && one_in(prng, 2);
        if !tokens.is_empty() {
            tokens.push(if minus { b"-" } else { b"+" }.to_vec());
        }
        let (term, value) = term(prng, known, depth);
        tokens.extend(term);
        sum += if minus { -value } else { value };
    }
    if tokens.is_empty() {
        if let Some((name, _)) = known.iter().find(|known| known.1 == value) {
            return vec![name.to_vec()];
        }
        sum = value.clamp(0, NUMBER);
        tokens.push(numeral(prng, sum));
    }
    // What is missing yet.
    while sum != value {
        let part = (value - sum).clamp(-NUMBER, NUMBER);
        tokens.push(if part < 0 { b"-" } else { b"+" }.to_vec());
        tokens.push(numeral(prng, part.abs()));
        sum += part;
    }
    tokens
}

fn term(prng: &mut Prng, known: &[Known], depth: u32) -> (Tokens, i64) {
    if !known.is_empty() && one_in(prng, 2) {
        let (name, address) = *pick(prng, known);
        return (vec![name.to_vec()], address);
    }
    let bound = *pick(prng, &[2, 16, 256, 4096, NUMBER as u64 + 1]);
    let value = prng.below(bound) as i64;
    if depth < DEPTH && one_in(prng, 3) {
        let inner = operand(prng, value, known, depth + 1);
        return (parenthesised(inner, 1), value);
    }
    (vec![numeral(prng, value)], value)
}

fn parenthesised(tokens: Tokens, depth: u32) -> Tokens {
    let repeated = |sign: &[u8]| vec![sign.to_vec(); depth as usize];
    [repeated(b"("), tokens, repeated(b")")].concat()
}

/// A form's words with this operand for #.
fn with_operand(form: &Form, operand: Tokens) -> Tokens {
    let mut line = tokens(form.text);
    if form.field != Field::None {
        line.pop();
        line.extend(operand);
    }
    line
}

fn labelled(label: &[u8], tokens: Tokens) -> Tokens {
    [vec![label.to_vec(), b":".to_vec()], tokens].concat()
}

// Random texts

/// A line to be: its form and its address, the new one of an ORG.
struct Placed {
    form: &'static Form,
    address: usize,
}

fn org() -> &'static Form {
    FORMS
        .iter()
        .find(|form| form.field == Field::Org)
        .expect("a form of its own")
}

/// Lines that do not overlap; an ORG where there is no room to go on.
fn layout(prng: &mut Prng, lines: u64) -> Vec<Placed> {
    let mut used = [false; MASK];
    let mut address = 0;
    let mut placed = Vec::new();
    for _ in 0..lines {
        let mut form = pick(prng, &FORMS);
        let mut end = address + form.code.len();
        if form.field == Field::Org || end > MASK || used[address..end].contains(&true) {
            form = org();
            let edges = [0, 0x7FC, 0x7FD, 0x7FE, 0x7FF, 0x800, 0xFFD, 0xFFE, 0xFFF];
            address = match prng.below(4) {
                0 => *pick(prng, &edges),
                _ => prng.below(MASK as u64) as usize,
            };
            end = address;
        }
        used[address..end].fill(true);
        placed.push(Placed { form, address });
        address = end;
    }
    placed
}

/// The labels that a line may go to.
fn targets<'a>(line: &Placed, known: &'a [Known]) -> Vec<&'a Known<'a>> {
    let half = (line.address + 2) as i64 & 0x800;
    let reached = |target: i64| match line.form.field {
        Field::Address => true,
        Field::Branch => target & 0x800 == half,
        _ => false,
    };
    known
        .iter()
        .filter(|(_, address)| reached(*address))
        .collect()
}

/// An operand that fits, some of them a label's address.
fn fitting(prng: &mut Prng, line: &Placed, known: &[Known]) -> i64 {
    let targets = targets(line, known);
    if !targets.is_empty() && !one_in(prng, 4) {
        return pick(prng, &targets).1;
    }
    let any = prng.below(line.form.field.most() as u64 + 1) as i64;
    match line.form.field {
        Field::Org => line.address as i64,
        Field::Branch => any & 0x7FF | (line.address + 2) as i64 & 0x800,
        _ => any,
    }
}

/// A text that is accepted, and its mask.
pub fn program(prng: &mut Prng, lines: u64) -> (Lines, Mask) {
    let placed = layout(prng, lines);
    let chance = *pick(prng, &[1, 2, 5, 20]);
    let has_label: Vec<bool> = placed.iter().map(|_| one_in(prng, chance)).collect();
    let count = has_label.iter().filter(|&&has| has).count();
    let names = labels(prng, count);
    let defined = placed.iter().zip(&has_label).filter(|(_, &has)| has);
    let known: Vec<Known> = names
        .iter()
        .zip(defined)
        .map(|(name, (line, _))| (&name[..], line.address as i64))
        .collect();

    let mut text = Vec::new();
    let mut mask = [0x3E; MASK];
    let mut above = 0;
    for (line, has_label) in placed.iter().zip(has_label) {
        let usable = if line.form.field == Field::Org {
            &known[..above]
        } else {
            &known[..]
        };
        let value = fitting(prng, line, usable);
        let depth = *pick(prng, &[0, 0, 0, 0, 0, 1, 2, DEPTH - 1, DEPTH]);
        let operand = operand(prng, value, usable, depth);
        let mut tokens = with_operand(line.form, parenthesised(operand, depth));
        line.form.write(
            value,
            &mut mask[line.address..line.address + line.form.code.len()],
        );
        if has_label {
            tokens = labelled(known[above].0, tokens);
            above += 1;
        }
        while one_in(prng, 8) {
            text.push(vec![b' '; prng.below(3) as usize]);
        }
        text.push(spaced(prng, &tokens));
    }
    if one_in(prng, 2) {
        text.push(Vec::new()); // an LF at the end
    }
    (text, mask)
}

/// Lines that can be read, with few labels and any operands: most are refused with 14 or 13.
pub fn careless(prng: &mut Prng) -> Lines {
    let names: Vec<Vec<u8>> = labels(prng, 4);
    let values = [0, 1, 15, 16, 255, 256, 2047, 2048, 4094, 4095, 4096];
    let mut text = Vec::new();
    // Each label once at most, but for a few.
    let mut left = names.clone();
    for _ in 0..1 + prng.below(8) {
        let form = if one_in(prng, 5) {
            org()
        } else {
            pick(prng, &FORMS)
        };
        let value = match prng.below(4) {
            0 => *pick(prng, &values),
            1 => prng.below(16) as i64,
            2 => prng.below(form.field.most() as u64 + 1) as i64,
            _ => form.field.most() + prng.below(2) as i64,
        };
        let mut sum = vec![numeral(prng, value)];
        while one_in(prng, 3) {
            sum.push(pick(prng, &[b"+", b"-"]).to_vec());
            sum.push(pick(prng, &names).clone());
        }
        let mut tokens = with_operand(form, sum);
        if one_in(prng, 2) && !left.is_empty() {
            let name = left.swap_remove(prng.below(left.len() as u64) as usize);
            tokens = labelled(&name, tokens);
        } else if one_in(prng, 12) {
            let name = pick(prng, &names);
            tokens = labelled(name, tokens);
        }
        text.push(spaced(prng, &tokens));
    }
    text
}

/// Words and signs by chance; few such lines can be read.
pub fn soup(prng: &mut Prng) -> Lines {
    const SIGNS: [&str; 12] = [",", "[", "]", ":", "+", "-", "(", ")", ";", "#", "a", "\r"];
    let mut fixed: Vec<_> = FIXED.iter().copied().collect();
    fixed.sort(); // a seed names the same text everywhere
    let line = |prng: &mut Prng| {
        let mut tokens = Tokens::new();
        for _ in 0..prng.below(7) {
            let value = *pick(prng, &[0, 9, NUMBER, NUMBER + 1]);
            tokens.push(match prng.below(8) {
                0 | 1 => pick(prng, &fixed).to_vec(),
                2 => label(prng),
                3 => numeral(prng, value),
                4 => format!(
                    "{}{}",
                    prng.below(100),
                    pick(prng, &["A", "H", "G", "GH", "H0"])
                )
                .into_bytes(),
                _ => pick(prng, &SIGNS).as_bytes().to_vec(),
            });
        }
        spaced(prng, &tokens)
    };
    (0..1 + prng.below(3)).map(|_| line(prng)).collect()
}

/// Breaks a text in one of many ways; some leave it as good as it was.
pub fn damage(prng: &mut Prng, lines: &mut Lines) {
    let count = lines.len() as u64;
    let (at, other) = (prng.below(count) as usize, prng.below(count) as usize);
    let line = &mut lines[at];
    let place = prng.below(line.len() as u64 + 1) as usize;
    match prng.below(16) {
        0 => line.insert(place, *pick(prng, b" ,[]:+-()0AH;\t\r\0a#\x7F\xC0")),
        1 => line.insert(place, prng.byte()),
        2 if place < line.len() => {
            line.remove(place);
        }
        3 if place < line.len() => line[place] = prng.byte(),
        4 => line.truncate(place),
        5 => {
            lines.remove(at);
            if lines.is_empty() {
                lines.push(Vec::new());
            }
        }
        6 => lines.swap(at, other),
        7 => lines[at] = lines[other].clone(),
        8 => {
            let line = lines[other].clone();
            lines.insert(at, line);
        }
        9 if at > 0 => {
            // Two lines in one
            let line = lines.remove(at);
            lines[at - 1].extend(line);
        }
        10 => line.extend(
            pick(
                prng,
                &["+4096", "-4096", "+1", "-1", "+0", "+2048", "-X", "+65535"],
            )
            .bytes(),
        ),
        11 => {
            let org = [4096, 4095, 4094, 2046, 2045, 0, prng.below(MASK as u64)];
            *line = format!("ORG {}", pick(prng, &org)).into_bytes();
        }
        12 => *line = careless(prng).swap_remove(0),
        13 => *line = soup(prng).swap_remove(0),
        14 => {
            // One pair of parentheses more round what follows the last sign or space
            let start = line
                .iter()
                .rposition(|byte| b" ,+-".contains(byte))
                .map_or(0, |at| at + 1);
            line.insert(start, b'(');
            line.push(b')');
        }
        _ => {
            // A label lost
            if let Some(colon) = line.iter().position(|&byte| byte == b':') {
                line.drain(..=colon);
            }
        }
    }
}

/// A text that is accepted, and its mask, with spaces and empty lines up to so many bytes.
pub fn of_length(prng: &mut Prng, length: usize) -> (Vec<u8>, Mask) {
    let (lines, mask) = program(prng, 900);
    let mut text = joined(&lines);
    assert!(text.len() <= length, "{} bytes of 900 lines", text.len());
    let (first, second) = (*pick(prng, b" \n"), *pick(prng, b" \n"));
    let front = prng.below((length - text.len()) as u64 + 1) as usize;
    text.splice(..0, vec![first; front]);
    text.resize(length, second);
    (text, mask)
}

// Texts for speed

fn shuffled<T>(prng: &mut Prng, mut list: Vec<T>) -> Vec<T> {
    for at in (1..list.len()).rev() {
        list.swap(at, prng.below(at as u64 + 1) as usize);
    }
    list
}

/// So many forms of these.
fn forms(prng: &mut Prng, count: usize, of: impl Fn(&Form) -> bool) -> Vec<&'static Form> {
    let from: Vec<&Form> = FORMS.iter().filter(|form| of(form)).collect();
    (0..count).map(|_| *pick(prng, &from)).collect()
}

pub const ORDINARY_LINES: usize = 4096;
pub const ORDINARY_LABELS: usize = 500;

/// 4,096 lines of ordinary code with 500 labels. 3,096 of them are instructions that fill the mask,
/// 1,000 with two bytes, 830 of these to a label; the others are blank.
pub fn ordinary() -> Vec<u8> {
    const STEMS: [&str; 8] = [
        "LOOP", "KEY", "SHOW", "DIGIT", "WAIT", "PULSE", "NEXT", "DONE",
    ];
    const TO_LABEL: usize = 830;
    const LONG: usize = 1000;
    let prng = &mut Prng::new(1130);
    let jumps = |form: &Form| matches!(form.field, Field::Address | Field::Branch);
    let mut code = forms(prng, ORDINARY_LINES - 2 * LONG, |form| form.code.len() == 1);
    code.extend(forms(prng, TO_LABEL, jumps));
    code.extend(forms(prng, LONG - TO_LABEL, |form| {
        form.code.len() == 2 && !jumps(form)
    }));
    let names: Vec<String> = (0..ORDINARY_LABELS)
        .map(|n| format!("{}{n}", STEMS[n % STEMS.len()]))
        .collect();
    let mut labels: Vec<&str> = names.iter().map(|name| &name[..]).collect();
    labels.resize(code.len(), "");
    let mut blank = vec![true; LONG];
    blank.resize(code.len(), false);

    let next = |at: &mut usize, form: &'static Form| {
        let address = *at;
        *at += form.code.len();
        Some(Placed { form, address })
    };
    let placed: Vec<Placed> = shuffled(prng, code).into_iter().scan(0, next).collect();
    let labels = shuffled(prng, labels);
    let defined = labels
        .iter()
        .zip(&placed)
        .filter(|(label, _)| !label.is_empty());
    let known: Vec<Known> = defined
        .map(|(label, line)| (label.as_bytes(), line.address as i64))
        .collect();
    let mut text = String::new();
    for ((line, label), blank) in placed.iter().zip(&labels).zip(shuffled(prng, blank)) {
        let operand = match &targets(line, &known)[..] {
            [] => prng.below(line.form.field.most() as u64 + 1).to_string(),
            targets => String::from_utf8_lossy(pick(prng, targets).0).into_owned(),
        };
        let label = if label.is_empty() {
            String::new()
        } else {
            format!("{label}:")
        };
        text += &format!("{label:<9}{}\n", line.form.text.replace('#', &operand));
        if blank {
            text.push('\n');
        }
    }
    text.into_bytes()
}

/// Labels of three letters and digits, in order.
fn short_labels(count: usize) -> Vec<String> {
    const DIGITS: &[u8] = b"ABCDEFGHIJKLMNOPQRSTUVWXYZ0123456789";
    let all = (0..26 * 36 * 36).map(|n| {
        let letters = [n / 1296, n / 36 % 36, n % 36].map(|digit| DIGITS[digit] as char);
        String::from_iter(letters)
    });
    let names: Vec<String> = all
        .filter(|name| !FIXED.contains(name.as_bytes()))
        .take(count)
        .collect();
    assert_eq!(names.len(), count);
    names
}

/// Labels of 16 letters and digits that differ in the last three only.
fn common_beginning(count: usize) -> Vec<String> {
    let long = |name| format!("{}{name}", "Q".repeat(13));
    short_labels(count).into_iter().map(long).collect()
}

/// Labels of 16 letters and digits that differ in the first three only.
fn common_end(count: usize) -> Vec<String> {
    let long = |name| format!("{name}{}", "Q".repeat(13));
    short_labels(count).into_iter().map(long).collect()
}

/// Labels with the same letters in different orders.
fn anagrams(count: usize) -> Vec<String> {
    let mut names = vec![String::new()];
    for letter in "QRSTUVW".chars() {
        let with = |name: &String| {
            let places =
                (0..=name.len()).map(|at| format!("{}{letter}{}", &name[..at], &name[at..]));
            places.collect::<Vec<_>>()
        };
        names = names.iter().flat_map(with).collect();
    }
    names.truncate(count);
    assert_eq!(names.len(), count);
    names
}

fn defined(names: &[String]) -> String {
    names.iter().map(|name| format!("{name}:EI\n")).collect()
}

/// All labels defined, then jumps to sums of them, those that `order` names, up to the longest text.
fn sums(names: &[String], order: impl Fn(usize) -> usize) -> Vec<u8> {
    const PAIRS: usize = 32;
    let mut text = defined(names);
    let mut place = 0;
    let mut next = || {
        place += 1;
        &names[order(place) % names.len()]
    };
    loop {
        let mut line = format!("JMP {}", next());
        for _ in 0..PAIRS {
            let name = next();
            line += &format!("+{name}-{name}");
        }
        if text.len() + line.len() + 1 > TEXT {
            return text.into_bytes();
        }
        text += &line;
        text.push('\n');
    }
}

/// The same again and again between a start and an end, up to the longest text.
fn filled(start: &str, again: &str, end: &str) -> Vec<u8> {
    let times = (TEXT - start.len() - end.len()) / again.len();
    format!("{start}{}{end}", again.repeat(times)).into_bytes()
}

/// A name and a text.
type Named = (&'static str, Vec<u8>);

/// Thousands of labels, used so that a search through a list of them takes longest.
fn many_labels() -> Vec<Named> {
    let mut short = short_labels(3800);
    let last = short.len() - 1;
    let mut texts = vec![
        ("3,800 labels, sums of the last", sums(&short, |_| last)),
        ("3,800 labels, sums of the first", sums(&short, |_| 0)),
        ("3,800 labels, sums of each in turn", sums(&short, |n| n)),
        (MISSING, missing(&short)),
    ];
    short.reverse();
    texts.push(("3,800 falling labels, sums of each", sums(&short, |n| n)));
    for (name, names) in [
        (
            "1,600 long labels, common beginning",
            common_beginning(1600),
        ),
        ("1,600 long labels, common end", common_end(1600)),
        ("2,900 anagrams", anagrams(2900)),
    ] {
        texts.push((name, sums(&names, |_| names.len() - 1)));
    }
    texts.push((DEFINED, defined(&short_labels(9362)).into_bytes()));
    texts.push((
        "5,400 ORGs, each of the label above",
        chain(&short_labels(5400)),
    ));
    texts
}

const MISSING: &str = "3,800 labels, one missing at the end";
const DEFINED: &str = "9,362 labels, more than the mask holds";
const SHORTEST: &str = "21,845 lines, more than the mask holds";

fn missing(names: &[String]) -> Vec<u8> {
    const LAST: &[u8] = b"JMP ZZZZ\n";
    let mut text = sums(names, |_| names.len() - 1);
    text.truncate(TEXT - LAST.len());
    let whole = text.iter().rposition(|&byte| byte == b'\n').expect("lines");
    text.truncate(whole + 1);
    [&text, LAST].concat()
}

fn chain(names: &[String]) -> Vec<u8> {
    let first = format!("{}:ORG 0\n", names[0]);
    let others = names
        .windows(2)
        .map(|pair| format!("{}:ORG {}\n", pair[1], pair[0]));
    others.fold(first, |text, line| text + &line).into_bytes()
}

/// Lines as long, deep or many as can be.
fn long_lines() -> Vec<Named> {
    let depth = DEPTH as usize;
    let open = format!("+{}1{}", "(".repeat(depth), ")".repeat(depth));
    let sums = format!("+{}Q{}", "(1-".repeat(depth), ")".repeat(depth));
    let huge = "Q".repeat(TEXT / 2 - 3);
    vec![
        ("parentheses 16 deep", filled("JMP 0", &open, "")),
        ("parentheses 16 deep, sums", filled("Q:JMP 0", &sums, "")),
        ("one line, a sum of numbers", filled("JMP 1", "-1+1", "")),
        (
            "one line, a sum of its label",
            filled("Q:JMP Q", "-Q+Q", ""),
        ),
        (
            "one label of 32,764 letters",
            format!("{huge}:JMP {huge}").into_bytes(),
        ),
        ("one number with 65,531 zeros", filled("JMP ", "0", "")),
        ("65,535 empty lines", filled("", "\n", "")),
        ("65,535 spaces", filled("", " ", "")),
        (SHORTEST, filled("", "EI\n", "")),
    ]
}

/// Texts that should take longest.
pub fn worst() -> Vec<Named> {
    [many_labels(), long_lines()].concat()
}

#[cfg(test)]
mod tests {
    use super::*;
    use crate::plain_asm::{assemble, TextRefusal};

    fn answer(text: &[u8]) -> (u8, u32) {
        match assemble(text, &mut [0; MASK]) {
            Ok(()) => (0, 0),
            Err(TextRefusal { refusal, line }) => (refusal, line),
        }
    }

    #[test]
    fn programs_are_accepted() {
        for seed in 0..300 {
            let (lines, mask) = program(&mut Prng::new(seed), seed);
            let mut out = [0; MASK];
            assert_eq!(assemble(&joined(&lines), &mut out), Ok(()), "seed {seed}");
            assert!(out == mask, "seed {seed}");
        }
    }

    /// Each answer often enough that a comparison means something.
    #[test]
    fn every_answer_is_met() {
        let mut met = [0; 15];
        for seed in 0..3000 {
            let prng = &mut Prng::new(seed);
            let (mut lines, _) = program(prng, 30);
            damage(prng, &mut lines);
            for text in [lines, careless(prng), soup(prng)] {
                met[answer(&joined(&text)).0 as usize] += 1;
            }
        }
        for number in [0, 12, 13, 14] {
            assert!(met[number] > 500, "{number} met {} times", met[number]);
        }
    }

    #[test]
    fn texts_for_speed_are_as_they_should_be() {
        let text = ordinary();
        let count = |text: &[u8], byte| text.iter().filter(|&&other| other == byte).count();
        assert_eq!(
            (count(&text, b'\n'), count(&text, b':')),
            (ORDINARY_LINES, ORDINARY_LABELS)
        );
        let mut mask = [0; MASK];
        assert_eq!(assemble(&text, &mut mask), Ok(()));
        for (name, text) in worst() {
            assert!(text.len() <= TEXT, "{name}: {} bytes", text.len());
            let lines = count(&text, b'\n') as u32;
            let expected = match name {
                DEFINED | SHORTEST => (13, 4097),
                MISSING => (14, lines),
                _ => (0, 0),
            };
            assert_eq!(answer(&text), expected, "{name}");
        }
    }
}
