//! The numbers that calls answer, taken apart.

use crate::Refusal;

pub(crate) fn accepted(refusal: u8) -> Result<(), Refusal> {
    Refusal::from_number(refusal).map_or(Ok(()), Err)
}

/// Byte `n` of an answer.
pub(crate) fn part(answer: u64, n: u32) -> u8 {
    (answer >> (8 * n)) as u8
}

/// The high half of an answer begins with an address, an offset, a target or a
/// count.
pub(crate) fn high(answer: u64) -> u16 {
    (answer >> 32) as u16
}
