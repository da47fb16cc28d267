//! What a board does with a machine: power-on, events, the report and the count of strays.

use crate::answers::{accepted, high, part};
use crate::ffi;
use crate::{Machine, Options, Refusal};

/// Bytes of a report.
pub const REPORT: usize = 48;

/// Something that happens to a machine.
#[derive(Clone, Copy, PartialEq, Eq, Hash, Debug)]
pub enum Event {
    /// At most so many steps; fewer when the machine halts or faults.
    Run(u16),
    /// New levels at the input ports, nibbles.
    Pins {
        /// Port M.
        pm: u8,
        /// Port S.
        ps: u8,
        /// Port P.
        pp: u8,
    },
    /// A new level at INT, 0 or 1.
    Int(u8),
    /// So many rising edges at TMCLK. They move a running timer on the external
    /// clock, halted or not, and wake nothing.
    Tmclk(u16),
    /// A reset.
    Res,
}

/// The kind of [`Event::Run`], by number.
pub const RUN: u16 = 2;
/// The kind of [`Event::Pins`], by number.
pub const PINS: u16 = 3;
/// The kind of [`Event::Int`], by number.
pub const INT: u16 = 4;
/// The kind of [`Event::Tmclk`], by number.
pub const TMCLK: u16 = 5;
/// The kind of [`Event::Res`], by number.
pub const RES: u16 = 6;

/// Powers a machine on with options and an image of [`IMAGE`](crate::IMAGE) nibbles: ACC,
/// R0-R4, memory. What the record held before does not matter.
///
/// Refused: `BufferLength`, `Value`, `Option`.
pub fn power_on(machine: &mut Machine, options: Options, image: &[u8]) -> Result<(), Refusal> {
    let Options {
        rate,
        commons,
        pm,
        ps,
        pp,
    } = options;
    // SAFETY: the record and the slice are valid for the call and cannot overlap.
    accepted(unsafe {
        ffi::ht1130_power_on(
            machine,
            rate,
            commons,
            pm,
            ps,
            pp,
            image.as_ptr(),
            image.len(),
        )
    })
}

/// Applies an event to a machine. Only `Run` looks at the mask; the others take
/// any slice, an empty one too.
///
/// Refused: `MaskLength`, `Value`, `Machine`.
pub fn apply(machine: &mut Machine, event: Event, mask: &[u8]) -> Result<(), Refusal> {
    match event {
        Event::Run(steps) => apply_kind(machine, RUN, steps, 0, 0, 0, mask),
        Event::Pins { pm, ps, pp } => apply_kind(machine, PINS, 0, pm, ps, pp, mask),
        Event::Int(level) => apply_kind(machine, INT, 0, level, 0, 0, mask),
        Event::Tmclk(edges) => apply_kind(machine, TMCLK, edges, 0, 0, 0, mask),
        Event::Res => apply_kind(machine, RES, 0, 0, 0, 0, mask),
    }
}

/// Applies an event given by numbers; what the kind does not name is not
/// looked at. PINS takes PM, PS, PP as a, b, c; INT its level as a.
///
/// Refused: as [`apply`], and `Kind` for a kind other than 2 to 6.
pub fn apply_kind(
    machine: &mut Machine,
    kind: u16,
    count: u16,
    a: u8,
    b: u8,
    c: u8,
    mask: &[u8],
) -> Result<(), Refusal> {
    // SAFETY: the record and the slice are valid for the call and cannot overlap.
    accepted(unsafe { ffi::ht1130_apply(machine, kind, count, a, b, c, mask.as_ptr(), mask.len()) })
}

/// Writes a machine's report to a buffer of [`REPORT`] bytes.
///
/// Refused: `BufferLength`, `Machine`.
pub fn report(machine: &Machine, out: &mut [u8]) -> Result<(), Refusal> {
    // SAFETY: the record and the slice are valid for the call and cannot overlap.
    accepted(unsafe { ffi::ht1130_report(machine, out.as_mut_ptr(), out.len()) })
}

/// A machine's report.
///
/// Refused: `Machine`.
pub fn report_bytes(machine: &Machine) -> Result<[u8; REPORT], Refusal> {
    let mut out = [0; REPORT];
    report(machine, &mut out)?;
    Ok(out)
}

/// How often the mask touched data memory that is not there: reads and writes at
/// 80h-DFh since the last power-on, 65,535 for more. An instruction that reads and
/// writes counts two, one that faults none, nor does a refused `Run`; RES keeps
/// the count.
///
/// Refused: `Machine`.
///
/// ```
/// use ht1130::{Event, Machine, Options, IMAGE, MASK};
///
/// let mut mask = [0x3E; MASK]; // NOP throughout
/// mask[..4].copy_from_slice(&[0x50, 0x08, 0x04, 0x0C]); // MOV R1R0,80H; MOV A,[R1R0]; INC [R1R0]
///
/// let mut machine = Machine::zeroed();
/// ht1130::power_on(&mut machine, Options::default(), &[0; IMAGE])?;
/// ht1130::apply(&mut machine, Event::Run(9), &mask)?;
/// assert_eq!(ht1130::gap_count(&machine)?, 3);
/// # Ok::<(), ht1130::Refusal>(())
/// ```
pub fn gap_count(machine: &Machine) -> Result<u16, Refusal> {
    // SAFETY: the record is valid for the call.
    let answer = unsafe { ffi::ht1130_gap_count(machine) };
    accepted(part(answer, 0))?;
    Ok(high(answer))
}
