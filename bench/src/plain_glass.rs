//! A plain glass, written from document 02's wish 7 alone: a list of all valid
//! pictures with what they show, and numbers as a person writes them.

use crate::plain::{self, Refusal, REPORT};
use std::sync::OnceLock;

pub const PICTURE: usize = 8;
pub const DIGITS: usize = 4;

#[derive(Clone, Copy, PartialEq, Eq, Debug)]
pub enum Reading {
    Dark,
    Number { value: i32, places: u8 },
}

/// A refusal, and the digit that is named with it.
pub type GlassRefusal = (Refusal, u8);

/// The segments of 0 to 9: 6 has a, 7 is a, b, c, and 9 has d.
const SHAPES: [&str; 10] = [
    "abcdef", "bc", "abdeg", "abcdg", "bcfg", "acdfg", "acdefg", "abc", "abcdefg", "abcdfg",
];

/// A digit's two nibbles as one byte, the first low: bits 0 to 6 are a to g.
pub type Code = u8;

pub const BLANK: Code = 0;
pub const POINT: Code = 0x80;

fn lit(segments: &str) -> Code {
    segments.bytes().fold(0, |code, s| code | 1 << (s - b'a'))
}

pub fn minus() -> Code {
    lit("g")
}

pub fn shape(numeral: usize) -> Code {
    lit(SHAPES[numeral])
}

/// The codes of a text of digits, `-`, `.` and spaces. A point is lit on the digit
/// before it.
fn codes(text: &str) -> Vec<Code> {
    let mut codes: Vec<Code> = Vec::new();
    for character in text.bytes() {
        match character {
            b' ' => codes.push(BLANK),
            b'-' => codes.push(minus()),
            b'.' => *codes.last_mut().expect("a digit before the point") |= POINT,
            digit => codes.push(shape((digit - b'0') as usize)),
        }
    }
    codes
}

/// A text at the right of the glass, where it fits.
fn at_the_right(text: &str) -> Option<[Code; DIGITS]> {
    let codes = codes(text);
    let blanks = DIGITS.checked_sub(codes.len())?;
    let mut glass = [BLANK; DIGITS];
    glass[blanks..].copy_from_slice(&codes);
    Some(glass)
}

/// Every valid picture with its reading, by the codes of its digits from the left.
pub fn valid() -> &'static [([Code; DIGITS], Reading)] {
    static VALID: OnceLock<Vec<([Code; DIGITS], Reading)>> = OnceLock::new();
    VALID.get_or_init(|| {
        let mut list = vec![([BLANK; DIGITS], Reading::Dark)];
        for count in 1..=DIGITS {
            for size in 0..10_i32.pow(count as u32) {
                let digits = format!("{size:0count$}");
                add_pointed(&mut list, &digits, size);
                add_pointed(&mut list, &format!("-{digits}"), -size);
            }
        }
        list.sort_by_key(|&(glass, _)| glass);
        list
    })
}

/// Adds a text without a point, and with one after each of its digits, where it fits.
fn add_pointed(list: &mut Vec<([Code; DIGITS], Reading)>, text: &str, value: i32) {
    let mut add = |text: &str, places| {
        if let Some(glass) = at_the_right(text) {
            list.push((glass, Reading::Number { value, places }));
        }
    };
    add(text, 0);
    let first = text.starts_with('-') as usize;
    for after in 0..text.len() - first {
        let (before, rest) = text.split_at(text.len() - after);
        add(&format!("{before}.{rest}"), after as u8);
    }
}

/// Whether a valid picture begins with these digits.
fn begins_valid(digits: &[Code]) -> bool {
    let at = valid().partition_point(|(glass, _)| &glass[..digits.len()] < digits);
    valid()
        .get(at)
        .is_some_and(|(glass, _)| glass.starts_with(digits))
}

pub fn read(picture: &[u8]) -> Result<Reading, GlassRefusal> {
    let picture: &[u8; PICTURE] = picture.try_into().map_err(|_| (2, 0))?;
    if picture.iter().any(|&nibble| nibble > 15) {
        return Err((3, 0));
    }
    let glass: [Code; DIGITS] = std::array::from_fn(|k| picture[2 * k] | picture[2 * k + 1] << 4);
    // The leftmost digit that no valid picture with the same digits before it has.
    if let Some(digit) = (0..DIGITS).find(|&k| !begins_valid(&glass[..=k])) {
        return Err((16, digit as u8));
    }
    let at = valid()
        .binary_search_by_key(&glass, |&(glass, _)| glass)
        .expect("four digits that a valid picture begins with are its all");
    Ok(valid()[at].1)
}

/// A number as a person writes it: one digit at least before the point.
pub fn written(value: i32, places: u8) -> String {
    let minus = if value < 0 { "-" } else { "" };
    let least = places as usize + 1;
    let digits = format!("{:0least$}", value.unsigned_abs());
    match digits.split_at(digits.len() - places as usize) {
        (whole, "") => format!("{minus}{whole}"),
        (whole, rest) => format!("{minus}{whole}.{rest}"),
    }
}

pub fn draw(reading: Reading, picture: &mut [u8]) -> Result<(), GlassRefusal> {
    let picture: &mut [u8; PICTURE] = picture.try_into().map_err(|_| (2, 0))?;
    let text = match reading {
        Reading::Dark => String::new(),
        Reading::Number { value, places } => written(value, places),
    };
    let glass = at_the_right(&text).ok_or((16, 0))?;
    *picture = picture_of(glass);
    Ok(())
}

/// The nibbles of four digits.
pub fn picture_of(glass: [Code; DIGITS]) -> [u8; PICTURE] {
    std::array::from_fn(|i| glass[i / 2] >> (4 * (i % 2)) & 15)
}

/// What an operator sees of a machine: display nibbles 0 to 7 of its report.
pub fn reading(machine: &plain::Machine) -> Result<Reading, GlassRefusal> {
    let mut report = [0; REPORT];
    machine
        .report(&mut report)
        .map_err(|refusal| (refusal, 0))?;
    read(&report[16..16 + PICTURE])
}

#[cfg(test)]
mod tests {
    use super::*;

    fn number(value: i32, places: u8) -> Reading {
        Reading::Number { value, places }
    }

    /// A text of four characters as a picture.
    fn shown(text: &str) -> [u8; PICTURE] {
        picture_of(codes(text).try_into().expect("four digits"))
    }

    /// Codes worked out by hand: a to d in the first nibble, e to g and the point in the
    /// second.
    #[test]
    fn nibbles() {
        let by_hand: [[u8; 2]; 10] = [
            [15, 3],
            [6, 0],
            [11, 5],
            [15, 4],
            [6, 6],
            [13, 6],
            [13, 7],
            [7, 0],
            [15, 7],
            [15, 6],
        ];
        for (numeral, nibbles) in by_hand.into_iter().enumerate() {
            assert_eq!(shape(numeral), nibbles[0] | nibbles[1] << 4, "{numeral}");
        }
        assert_eq!(shown("-1.7 "), [0, 4, 6, 8, 7, 0, 0, 0]);
    }

    #[test]
    fn the_list() {
        // n digits with no point or one of n, with and without a minus where it fits
        let numbers = 2 * (10 * 2 + 100 * 3 + 1000 * 4) + 10_000 * 5;
        assert_eq!(valid().len(), 1 + numbers);
        assert!(valid().windows(2).all(|two| two[0].0 < two[1].0));
    }

    #[test]
    fn reads() {
        for (text, reading) in [
            ("    ", Reading::Dark),
            ("   0", number(0, 0)),
            ("12.34", number(1234, 2)),
            ("  12.", number(12, 0)),
            (" 007", number(7, 0)),
            (" 00.5", number(5, 1)),
            ("-0.50", number(-50, 2)),
            (" -0.0", number(0, 1)),
            ("9999", number(9999, 0)),
        ] {
            assert_eq!(read(&shown(text)), Ok(reading), "`{text}`");
        }
    }

    #[test]
    fn refuses() {
        for (text, digit) in [
            ("1 23", 1),
            ("123 ", 3),
            ("-   ", 1),
            (" - 1", 2),
            (" --1", 2),
            ("   -", 3),
            (" .123", 0),
            ("    .", 3),
            ("-.123", 0),
            ("1.23.4", 2),
            ("12-3", 2),
        ] {
            assert_eq!(read(&shown(text)), Err((16, digit)), "`{text}`");
        }
        assert_eq!(read(&[16; 7]), Err((2, 0)));
        assert_eq!(read(&[1, 0, 0, 0, 0, 0, 0, 16]), Err((3, 0)));
    }

    #[test]
    fn writes() {
        for (value, places, text) in [
            (0, 0, "0"),
            (5, 1, "0.5"),
            (-50, 2, "-0.50"),
            (9999, 0, "9999"),
            (1234, 2, "12.34"),
            (i32::MIN, 0, "-2147483648"),
            (i32::MIN, 10, "-0.2147483648"),
        ] {
            assert_eq!(written(value, places), text);
        }
        assert_eq!(written(-1, 255).len(), 258);
    }

    /// What is drawn is, of the valid pictures of that reading, the one with the most
    /// blanks; it has no minus for 0 and no point for count 0. What does not fit has none.
    #[test]
    fn the_fewest_digits() {
        use std::collections::HashMap;
        let mut best: HashMap<(i32, u8), [Code; DIGITS]> = HashMap::new();
        let blanks = |glass: &[Code; DIGITS]| glass.iter().filter(|&&code| code == BLANK).count();
        for &(glass, reading) in valid() {
            let Reading::Number { value, places } = reading else {
                continue;
            };
            let pointed = glass.iter().any(|code| code & POINT != 0);
            if pointed != (places > 0) || value == 0 && glass.contains(&minus()) {
                continue;
            }
            let drawn = best.entry((value, places)).or_insert(glass);
            if blanks(&glass) > blanks(drawn) {
                *drawn = glass;
            }
        }
        for value in -1100..=11_000 {
            for places in 0..=5 {
                let mut picture = [0xA5; PICTURE];
                let drawn = draw(number(value, places), &mut picture);
                match best.get(&(value, places)) {
                    Some(&glass) => {
                        assert_eq!((drawn, picture), (Ok(()), picture_of(glass)));
                        assert_eq!(read(&picture), Ok(number(value, places)));
                    }
                    None => assert_eq!((drawn, picture), (Err((16, 0)), [0xA5; PICTURE])),
                }
            }
        }
    }
}
