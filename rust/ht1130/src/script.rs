//! Scripts, checked and run whole.

use crate::answers::{accepted, high, part};
use crate::ffi;
use crate::{ScriptRefusal, REPORT};

/// The most bytes a script may have.
pub const SCRIPT: usize = 65535;

fn script_answer(answer: u64) -> Result<(), ScriptRefusal> {
    accepted(part(answer, 0)).map_err(|refusal| ScriptRefusal {
        refusal,
        offset: high(answer),
    })
}

/// Checks a whole script for a report buffer of `room` bytes; runs nothing.
///
/// Refused: all up to `ReportRoom` but `BufferLength` and `Machine`.
pub fn check_script(mask: &[u8], script: &[u8], room: usize) -> Result<(), ScriptRefusal> {
    // SAFETY: both slices are valid for the call.
    script_answer(unsafe {
        ffi::ht1130_check_script(
            mask.as_ptr(),
            mask.len(),
            script.as_ptr(),
            script.len(),
            room,
        )
    })
}

/// Checks a script as [`check_script`] does, then runs it: [`REPORT`] bytes for
/// each record. Bytes of `out` after the last report stay.
pub fn run_script(mask: &[u8], script: &[u8], out: &mut [u8]) -> Result<(), ScriptRefusal> {
    // SAFETY: the slices are valid for the call; `out` cannot overlap the others.
    script_answer(unsafe {
        ffi::ht1130_run_script(
            mask.as_ptr(),
            mask.len(),
            script.as_ptr(),
            script.len(),
            out.as_mut_ptr(),
            out.len(),
        )
    })
}

/// Runs a script as [`run_script`] does, and returns a report for each record.
pub fn reports(mask: &[u8], script: &[u8]) -> Result<Vec<[u8; REPORT]>, ScriptRefusal> {
    // No record has under 4 bytes, and a longer script is refused.
    let mut out = vec![[0; REPORT]; script.len().min(SCRIPT) / 4];
    run_script(mask, script, out.as_flattened_mut())?;
    // A report starts with 44, and what follows the last one is still 0.
    let count = out.iter().take_while(|report| report[0] != 0).count();
    out.truncate(count);
    Ok(out)
}
