//! Masks from text.

use crate::answers::{accepted, part};
use crate::ffi;
use crate::{TextRefusal, MASK};

/// The most bytes a text to assemble may have.
pub const TEXT: usize = 65535;

/// Assembles a text into a mask of [`MASK`] bytes: each line's bytes at its
/// address, 3Eh elsewhere.
///
/// Lines end in LF, which the last may lack; the first address is 0. A line is
/// blank, or `LABEL:` or none and then a line of the data sheet's instruction
/// summary or `ORG operand`. Letters are upper case, spaces free, one at least
/// between two words. A label is a letter, then letters or digits, and no word of
/// the summary (such as MOV, A, LOOP) nor ORG; on an ORG line it has the new
/// address. An operand is a number up to 65,535 (decimal, or hexadecimal ending in
/// H; it starts with a digit), a label, or sums and differences of operands, with
/// parentheses up to 16 deep. A conditional branch fits where its target has the
/// bit 11 of the address after it.
///
/// Refused: `BufferLength` with line 0, then `Syntax`, `Label` and `Range`, each
/// with the first such line; a text over [`TEXT`] bytes is `Syntax` at line 1.
///
/// ```
/// use ht1130::MASK;
///
/// let mut mask = [0; MASK];
/// ht1130::assemble(b"ORG 10H\nAGAIN: INC A\nJMP AGAIN\n", &mut mask)?;
/// assert_eq!(mask[0x10..0x14], [0x31, 0xE0, 0x10, 0x3E]);
/// # Ok::<(), ht1130::TextRefusal>(())
/// ```
pub fn assemble(text: &[u8], out: &mut [u8]) -> Result<(), TextRefusal> {
    // SAFETY: both slices are valid for the call and cannot overlap.
    let answer =
        unsafe { ffi::ht1130_assemble(text.as_ptr(), text.len(), out.as_mut_ptr(), out.len()) };
    accepted(part(answer, 0)).map_err(|refusal| TextRefusal {
        refusal,
        line: (answer >> 32) as u32,
    })
}

/// The mask of a text, as [`assemble`] writes it.
pub fn assembled(text: &[u8]) -> Result<[u8; MASK], TextRefusal> {
    let mut out = [0; MASK];
    assemble(text, &mut out)?;
    Ok(out)
}
