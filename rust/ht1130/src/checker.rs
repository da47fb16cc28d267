//! The checker of masks: its verdict, the way to a fault, and how long an edge is held.

use std::fmt;

use crate::answers::{accepted, high, part};
use crate::ffi;
use crate::refusals::words;
use crate::Refusal;

/// Bytes of a list that no [`way`] is too long for: three for each of the 12,288
/// pairs.
pub const WAY: usize = 36864;

/// What the checker says of a mask.
#[derive(Clone, Copy, PartialEq, Eq, Hash, Debug)]
pub enum Verdict {
    /// From a power-on that is accepted, no list of events faults in which each Run
    /// has this mask.
    Passed,
    /// The lowest address, then level, where it may fault. Every branch is taken both
    /// ways and an enabled interrupt at any time, so such a mask need not fault.
    Failed {
        /// 1 to 3, as in [`Status::fault`](crate::Status::fault).
        fault: u8,
        /// The address of the instruction.
        address: u16,
        /// The level it runs in.
        level: u8,
    },
}

impl fmt::Display for Verdict {
    fn fmt(&self, f: &mut fmt::Formatter<'_>) -> fmt::Result {
        match *self {
            Verdict::Passed => f.write_str("passed"),
            Verdict::Failed {
                fault,
                address,
                level,
            } => write!(
                f,
                "{} at {address:03X}, level {level}",
                words("fault ", fault)
            ),
        }
    }
}

/// An address with a level, as [`way`] lists them.
#[derive(Clone, Copy, PartialEq, Eq, PartialOrd, Ord, Hash, Debug)]
pub struct Pair {
    /// The address of the instruction.
    pub address: u16,
    /// The level it runs in.
    pub level: u8,
}

/// How long an edge can be held at a pair, as [`bound`] answers.
#[derive(Clone, Copy, PartialEq, Eq, Hash, Debug)]
pub enum Bound {
    /// The pair is not marked, or it is in level 0.
    NotReached,
    /// A loop or a HALT can be reached in that level.
    NoBound,
    /// The most cycles from the pair to a return, the return included.
    Cycles(u32),
}

/// Checks a mask and writes [`MASK`](crate::MASK) marks, also where it fails: 1 the code at
/// this address may run in level 0, 2 in level 1, 4 in level 2, added.
///
/// Refused: `MaskLength`, `BufferLength`.
pub fn check(mask: &[u8], marks: &mut [u8]) -> Result<Verdict, Refusal> {
    // SAFETY: both slices are valid for the call and cannot overlap.
    let answer =
        unsafe { ffi::ht1130_check(mask.as_ptr(), mask.len(), marks.as_mut_ptr(), marks.len()) };
    accepted(part(answer, 0))?;
    Ok(match part(answer, 1) {
        0 => Verdict::Passed,
        fault => Verdict::Failed {
            fault,
            address: high(answer),
            level: part(answer, 2),
        },
    })
}

/// Lists a way to the pair that [`check`] names, and returns its count of pairs:
/// a chain from address 0, level 0, each pair after the first a successor of the
/// one before, the last the pair with the fault. No such chain has fewer pairs;
/// which of several is free. The list gets three bytes a pair, which [`pairs`]
/// takes apart; bytes after the last pair stay. [`WAY`] bytes are never too few.
///
/// Refused: `MaskLength`, then `MaskPasses`, then `ListLength`.
///
/// ```
/// use ht1130::{Pair, MASK, WAY};
///
/// let mut mask = [0x3E; MASK]; // NOP throughout
/// mask[..2].copy_from_slice(&[0xF1, 0x23]); // CALL 123h
/// mask[0x123..0x125].copy_from_slice(&[0xF0, 0x10]); // CALL 010h, in a subroutine
///
/// let mut list = [0; WAY];
/// let count = ht1130::way(&mask, &mut list)?;
/// let way: Vec<Pair> = ht1130::pairs(&list[..3 * count]).collect();
/// assert_eq!(way[0], Pair { address: 0, level: 0 });
/// assert_eq!(way[1], Pair { address: 0x123, level: 1 });
/// # assert_eq!(way.len(), 2);
/// # Ok::<(), ht1130::Refusal>(())
/// ```
pub fn way(mask: &[u8], list: &mut [u8]) -> Result<usize, Refusal> {
    // SAFETY: both slices are valid for the call and cannot overlap.
    let answer =
        unsafe { ffi::ht1130_way(mask.as_ptr(), mask.len(), list.as_mut_ptr(), list.len()) };
    accepted(part(answer, 0))?;
    Ok(high(answer) as usize)
}

/// The pairs of a list of three bytes each: address, low byte first, then level.
/// A rest of one or two bytes is left out.
pub fn pairs(list: &[u8]) -> impl Iterator<Item = Pair> + '_ {
    list.chunks_exact(3).map(|bytes| Pair {
        address: u16::from_le_bytes([bytes[0], bytes[1]]),
        level: bytes[2],
    })
}

/// How long an edge can be held, for a pair of a mask that passes. In a subroutine
/// or an interrupt (level 1, 2) an edge is held; in level 0 it can be taken.
///
/// [`Bound::Cycles`] is the largest total over all chains from the pair to a
/// return. A machine at such a pair, not halted or faulted, has come to level 0
/// once its steps have spent that many cycles, under any events but RES and
/// power-on, each Run with this mask. An edge that is held then, with interrupts
/// enabled, is taken by the next step.
///
/// The call takes up to 337 KB of stack, more than a thread started with a small
/// one may have.
///
/// Refused: `MaskLength`, then `Machine` for an address over 4,095 or a level over
/// 2, then `MaskFails`.
///
/// ```
/// use ht1130::{Bound, MASK};
///
/// let mut mask = [0x3E; MASK]; // NOP throughout
/// mask[..3].copy_from_slice(&[0x2C, 0xE0, 0x01]); // EI; 001h: JMP 001h
/// mask[4] = 0x2F; // RETI
/// mask[8..10].copy_from_slice(&[0x18, 0x2F]); // INC R4; RETI
///
/// assert_eq!(ht1130::bound(&mask, 8, 2)?, Bound::Cycles(2));
/// assert_eq!(ht1130::bound(&mask, 8, 1)?, Bound::NotReached);
/// mask[8..10].copy_from_slice(&[0xE0, 0x08]); // 008h: JMP 008h
/// assert_eq!(ht1130::bound(&mask, 8, 2)?, Bound::NoBound);
/// # Ok::<(), ht1130::Refusal>(())
/// ```
pub fn bound(mask: &[u8], address: u16, level: u8) -> Result<Bound, Refusal> {
    // SAFETY: the slice is valid for the call.
    let answer = unsafe { ffi::ht1130_bound(mask.as_ptr(), mask.len(), address, level) };
    accepted(part(answer, 0))?;
    Ok(match part(answer, 1) {
        0 => Bound::NotReached,
        1 => Bound::NoBound,
        _ => Bound::Cycles((answer >> 32) as u32),
    })
}
