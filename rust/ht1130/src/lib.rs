//! The Holtek HT1130, a 4-bit microcontroller with an LCD driver: a proved
//! engine, mask checker and assembler, and the reading on its panel.
//!
//! This crate is the Rust side of `ht1130.h` and `ht1130_tools.h`. It keeps no state and, but for
//! [`reports`], allocates nothing: a call works on what it is lent. Bad input is
//! refused before anything happens, so after an `Err` every lent machine and
//! buffer is as it was.
//!
//! ```
//! use ht1130::{Event, Machine, Options, IMAGE, MASK};
//!
//! let mut mask = [0x3E; MASK]; // NOP throughout
//! mask[..2].copy_from_slice(&[0x75, 0x30]); // MOV A,5; OUT PA,A
//!
//! let mut machine = Machine::zeroed();
//! ht1130::power_on(&mut machine, Options::default(), &[0; IMAGE])?;
//! ht1130::apply(&mut machine, Event::Run(2), &mask)?;
//! assert_eq!(machine.cpu.outputs.pa, 5);
//! # Ok::<(), ht1130::Refusal>(())
//! ```

#![deny(unsafe_op_in_unsafe_fn)]
#![warn(missing_docs)]

mod answers;
mod assembler;
mod checker;
mod events;
pub mod ffi;
mod glass;
mod instructions;
mod machine;
mod refusals;
mod script;

pub use assembler::{assemble, assembled, TEXT};
pub use checker::{bound, check, pairs, way, Bound, Pair, Verdict, WAY};
pub use events::{apply, apply_kind, gap_count, power_on, report, report_bytes, Event};
pub use events::{INT, PINS, REPORT, RES, RUN, TMCLK};
pub use glass::{glass_draw, glass_drawn, glass_read, reading, Reading, PICTURE};
pub use instructions::{branch, form, read, write, Code, Instruction};
pub use machine::{Control, Cpu, Interrupts, Machine, Options, Outputs, Pins, Registers};
pub use machine::{Stack, Status, Timer, EXTERNAL_CLOCK, IMAGE, SOUND_OFF};
pub use refusals::{GlassRefusal, Refusal, ScriptRefusal, TextRefusal};
pub use script::{check_script, reports, run_script, SCRIPT};

/// Bytes of a mask, and of its marks.
pub const MASK: usize = 4096;
