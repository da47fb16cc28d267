//! The reading on the panel: pictures read and drawn.

use std::fmt;

use crate::answers::{accepted, part};
use crate::ffi;
use crate::{GlassRefusal, Machine};

/// Nibbles of a picture: two for each of four digits.
pub const PICTURE: usize = 8;

/// What an operator reads on the glass, as [`glass_read`] and [`reading`] answer.
///
/// It prints as a person writes it:
///
/// ```
/// use ht1130::Reading;
///
/// let reading = Reading::Number { value: -50, places: 2 };
/// assert_eq!(reading.to_string(), "-0.50");
/// assert_eq!(Reading::Dark.to_string(), "dark");
/// ```
#[derive(Clone, Copy, PartialEq, Eq, Hash, Debug)]
pub enum Reading {
    /// All is blank.
    Dark,
    /// A signed whole number and a point in it.
    Number {
        /// All digits, with the sign.
        value: i32,
        /// How many of them are after the point.
        places: u8,
    },
}

impl fmt::Display for Reading {
    fn fmt(&self, f: &mut fmt::Formatter<'_>) -> fmt::Result {
        let (value, places) = match *self {
            Reading::Dark => return f.write_str("dark"),
            Reading::Number { value, places } => (value, places),
        };
        let (minus, size) = (if value < 0 { "-" } else { "" }, value.unsigned_abs());
        if places == 0 {
            return write!(f, "{minus}{size}");
        }
        // From 10 places on no digit of an i32 is before the point.
        let (whole, rest) = match 10_u32.checked_pow(places.into()) {
            Some(one) => (size / one, size % one),
            None => (0, size),
        };
        write!(f, "{minus}{whole}.{rest:0width$}", width = places.into())
    }
}

fn glass_accepted(answer: u64) -> Result<(), GlassRefusal> {
    accepted(part(answer, 0)).map_err(|refusal| GlassRefusal {
        refusal,
        digit: part(answer, 1),
    })
}

fn glass_answer(answer: u64) -> Result<Reading, GlassRefusal> {
    glass_accepted(answer)?;
    Ok(match part(answer, 2) {
        0 => Reading::Number {
            value: (answer >> 32) as i32,
            places: part(answer, 3),
        },
        _ => Reading::Dark,
    })
}

/// Reads a picture of [`PICTURE`] nibbles, as an operator does: a glass of four
/// digits. Digit k, leftmost 0, has the segments a, b, c, d in bits 0 to 3 of
/// nibble 2k; e, f, g in bits 0 to 2 of nibble 2k + 1, and the point after the
/// digit in bit 3. The shapes are the usual ones: 6 has a, 7 is a, b, c, and 9
/// has d.
///
/// A picture shows blanks (or none), then a minus, g alone (or none), then digits
/// to the right end; at most one of these digits has its point lit. Zeros may
/// lead, and the point may be on the last digit. All blank is dark. Minus zero
/// reads as 0.
///
/// Refused: `BufferLength`, then `Value` for a nibble over 15, then `Glass` with
/// the leftmost digit k such that no valid picture has the digits 0 to k of this
/// one.
///
/// ```
/// use ht1130::{GlassRefusal, Reading, Refusal};
///
/// let picture = [0, 0, 0b1011, 0b1101, 15, 4, 6, 6]; // blank, 2 and its point, 3, 4
/// let reading = ht1130::glass_read(&picture)?;
/// assert_eq!(reading, Reading::Number { value: 234, places: 2 });
/// assert_eq!(reading.to_string(), "2.34");
///
/// let refused = ht1130::glass_read(&[0, 0, 0b1011, 0b0101, 0, 0, 6, 6]); // a blank after a digit
/// assert_eq!(refused, Err(GlassRefusal { refusal: Refusal::Glass, digit: 2 }));
/// # Ok::<(), ht1130::GlassRefusal>(())
/// ```
pub fn glass_read(picture: &[u8]) -> Result<Reading, GlassRefusal> {
    // SAFETY: the slice is valid for the call.
    glass_answer(unsafe { ffi::ht1130_glass_read(picture.as_ptr(), picture.len()) })
}

/// Draws a reading into a picture of [`PICTURE`] nibbles, which [`glass_read`]
/// reads as this reading: a number at the right, its minus before it, with the
/// fewest digits, at least one, and one at least before a point. No point is lit
/// where `places` is 0. Dark is drawn blank.
///
/// Refused: `BufferLength`, then `Glass`, digit 0, where four digits, of which a
/// minus takes one, are not enough.
///
/// ```
/// use ht1130::{Reading, PICTURE};
///
/// let mut picture = [0; PICTURE];
/// ht1130::glass_draw(Reading::Number { value: -17, places: 1 }, &mut picture)?;
/// assert_eq!(picture, [0, 0, 0, 4, 6, 8, 7, 0]); // blank, minus, 1 and its point, 7
///
/// assert!(ht1130::glass_draw(Reading::Number { value: -1000, places: 0 }, &mut picture).is_err());
/// # Ok::<(), ht1130::GlassRefusal>(())
/// ```
pub fn glass_draw(reading: Reading, picture: &mut [u8]) -> Result<(), GlassRefusal> {
    let (dark, value, places) = match reading {
        Reading::Dark => (1, 0, 0),
        Reading::Number { value, places } => (0, value, places),
    };
    // SAFETY: the slice is valid for the call.
    glass_accepted(unsafe {
        ffi::ht1130_glass_draw(dark, value, places, picture.as_mut_ptr(), picture.len())
    })
}

/// The picture of a reading, as [`glass_draw`] draws it.
///
/// Refused: `Glass`, digit 0.
pub fn glass_drawn(reading: Reading) -> Result<[u8; PICTURE], GlassRefusal> {
    let mut picture = [0; PICTURE];
    glass_draw(reading, &mut picture)?;
    Ok(picture)
}

/// What an operator reads of a machine, by [`glass_read`]: display nibbles 0 to 7
/// (E0h-E7h) as a report shows them. A halted machine is dark; on three commons
/// segment d and the point are never lit, so that of the digits only 1, 4 and 7
/// can be read.
///
/// Refused: `Machine`, then `Glass` with the digit.
///
/// ```
/// use ht1130::{Event, Machine, Options, IMAGE, MASK};
///
/// let mut mask = [0x3E; MASK]; // NOP throughout
/// mask[..4].copy_from_slice(&[0x56, 0x0E, 0x76, 0x05]); // MOV R1R0,E6h; MOV A,6; MOV [R1R0],A
///
/// let mut machine = Machine::zeroed();
/// ht1130::power_on(&mut machine, Options::default(), &[0; IMAGE])?;
/// assert_eq!(ht1130::reading(&machine)?.to_string(), "dark");
/// ht1130::apply(&mut machine, Event::Run(3), &mask)?;
/// assert_eq!(ht1130::reading(&machine)?.to_string(), "1");
/// # Ok::<(), Box<dyn std::error::Error>>(())
/// ```
pub fn reading(machine: &Machine) -> Result<Reading, GlassRefusal> {
    // SAFETY: the record is valid for the call.
    glass_answer(unsafe { ffi::ht1130_reading(machine) })
}
