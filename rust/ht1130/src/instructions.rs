//! Instructions as numbers, read from a mask and written.

use crate::answers::{accepted, high, part};
use crate::ffi;
use crate::Refusal;

/// An instruction, by the numbers of [`form`].
#[derive(Clone, Copy, PartialEq, Eq, Hash, Debug)]
pub struct Instruction {
    /// The line of the data sheet's instruction summary.
    pub form: u8,
    /// The first operand, 0 where the form has none.
    pub a: u8,
    /// The second operand or the target, 0 where the form has none.
    pub b: u16,
    /// Bytes.
    pub length: u8,
    /// Machine cycles.
    pub cycles: u8,
}

/// Constants numbered from 0, and their names.
macro_rules! numbered {
    ($($name:ident)*) => {
        #[allow(non_camel_case_types, clippy::upper_case_acronyms)]
        enum Order { $($name),* }
        $(#[allow(missing_docs)] pub const $name: u8 = Order::$name as u8;)*
        /// The names, by number.
        pub const NAMES: &[&str] = &[$(stringify!($name)),*];
    };
}

/// The forms of [`Instruction::form`]: the lines of the data sheet's instruction
/// summary, in its order. M is the memory at R1R0.
///
/// Operands, in a: X a nibble, RN a register 0-4, XX a byte, PAIR (0 R1R0, 1
/// R3R2), PORT (0 PM, 1 PS, 2 PP), PAGE (0 the current, 1 page 15). A target is
/// in b, and so is XX of `MOV_PAIR_XX`. `BRANCH` has a [`branch`]
/// in a.
pub mod form {
    numbered! {
        ADD_A_M ADC_A_M SUB_A_M SBC_A_M ADD_A_X SUB_A_X DAA AND_A_M OR_A_M XOR_A_M AND_M_A OR_M_A
        XOR_M_A AND_A_X OR_A_X XOR_A_X INC_A INC_RN INC_PAIR DEC_A DEC_RN DEC_PAIR MOV_A_RN MOV_RN_A
        MOV_A_PAIR MOV_PAIR_A MOV_A_X MOV_PAIR_XX MOV_R4_X RL_A RLC_A RR_A RRC_A IN_A_PORT OUT_PA_A
        JMP BRANCH CALL RET RETI CLC STC EI DI NOP TIMER_XX TIMER_ON TIMER_OFF MOV_A_TMRL MOV_A_TMRH
        MOV_TMRL_A MOV_TMRH_A READ_R4A_PAGE READ_MR0A_PAGE SOUND_X SOUND_A SOUND_ONE SOUND_LOOP
        SOUND_OFF HALT
    }
}

/// What a `BRANCH` tests: the five leading bits of its code less 16.
pub mod branch {
    numbered! {
        JA0 JA1 JA2 JA3 JNZ_R0 JNZ_R1 JZ_A JNZ_A JC JNC JTMR JNZ_R4
    }
}

/// The bytes of an instruction; dereferences to a slice of one or two.
#[derive(Clone, Copy, PartialEq, Eq, Hash, Debug)]
pub struct Code {
    bytes: [u8; 2],
    length: u8,
}

impl std::ops::Deref for Code {
    type Target = [u8];

    fn deref(&self) -> &[u8] {
        &self.bytes[..self.length as usize]
    }
}

/// The instruction at an address of a mask, or `None` where the bytes read as
/// none. The byte after the last is the first.
///
/// Refused: `MaskLength`, `Machine` for an address over 4,095.
pub fn read(mask: &[u8], address: u16) -> Result<Option<Instruction>, Refusal> {
    // SAFETY: the slice is valid for the call.
    let answer = unsafe { ffi::ht1130_read(mask.as_ptr(), mask.len(), address) };
    accepted(part(answer, 0))?;
    Ok((part(answer, 1) == 0).then(|| Instruction {
        form: part(answer, 2),
        a: part(answer, 3),
        b: high(answer),
        length: part(answer, 6),
        cycles: part(answer, 7),
    }))
}

/// The bytes of an instruction. Operands that the form does not have are not
/// looked at.
///
/// Refused: `Value` for an unknown form or an operand outside its range.
pub fn write(form: u8, a: u8, b: u16) -> Result<Code, Refusal> {
    // SAFETY: numbers only.
    let answer = unsafe { ffi::ht1130_write(form, a, b) };
    accepted(part(answer, 0))?;
    Ok(Code {
        bytes: [part(answer, 2), part(answer, 3)],
        length: part(answer, 1),
    })
}
