//! Pictures and readings by chance, most of them valid or nearly so.

use crate::plain_glass::{minus, shape, Code, BLANK, DIGITS, POINT};
use crate::prng::Prng;

fn digit(prng: &mut Prng) -> Code {
    shape(prng.below(10) as usize)
}

/// Blanks, a minus or none, digits to the right end, one point or none.
fn valid(prng: &mut Prng) -> [Code; DIGITS] {
    let mut glass = [BLANK; DIGITS];
    let first = prng.below(DIGITS as u64 + 1) as usize;
    if first == DIGITS {
        return glass;
    }
    // Zeros more often: they lead, and they make minus zeros.
    let zeros = prng.below(4) == 0;
    for code in &mut glass[first..] {
        *code = if zeros && prng.below(3) != 0 {
            shape(0)
        } else {
            digit(prng)
        };
    }
    if first > 0 && prng.below(2) == 0 {
        glass[first - 1] = minus();
    }
    if prng.below(2) == 0 {
        glass[first + prng.below((DIGITS - first) as u64) as usize] |= POINT;
    }
    glass
}

/// The four digits of a picture: valid ones, and some that one digit or more spoils.
pub fn any(prng: &mut Prng) -> [Code; DIGITS] {
    let mut glass = valid(prng);
    while prng.below(4) == 0 {
        let at = prng.below(DIGITS as u64) as usize;
        match prng.below(6) {
            0 => glass[at] ^= POINT,
            1 => glass[at] = BLANK,
            2 => glass[at] = minus(),
            3 => glass[at] = prng.byte(),
            4 => glass[at] ^= 1 << prng.below(8), // a segment more or less
            _ => glass[at] = digit(prng),
        }
    }
    glass
}

/// Values about the edges of what fits, and far from them.
pub fn value(prng: &mut Prng) -> i32 {
    let value = match prng.below(8) {
        0 => i32::MIN,
        1 => i32::MAX,
        2 | 3 => prng.next() as i32,
        4 | 5 => 10_i32.pow(prng.below(10) as u32),
        6 => (prng.below(12) as i32 - 6) << 16, // 0 in 16 bits
        _ => prng.below(12_000) as i32 - 1_000,
    };
    match prng.below(4) {
        0 => value.wrapping_neg(),
        1 => value.wrapping_add(prng.below(21) as i32 - 10),
        _ => value,
    }
}
