//! The library as the comparison needs it: records turned into the plain
//! engine's, and answers in their eight raw bytes.

use crate::{plain, plain_glass};
use ht1130::ffi;

pub fn to_plain(machine: &ht1130::Machine) -> plain::Machine {
    let cpu = &machine.cpu;
    plain::Machine {
        acc: cpu.registers.acc,
        r: [
            cpu.registers.r0,
            cpu.registers.r1,
            cpu.registers.r2,
            cpu.registers.r3,
            cpu.registers.r4,
        ],
        pc: cpu.control.pc,
        cf: cpu.control.cf,
        tf: cpu.control.tf,
        timer: cpu.timer.count,
        running: cpu.timer.running,
        enabled: cpu.interrupts.enabled,
        held: cpu.interrupts.held,
        level: cpu.interrupts.level,
        stack: cpu.stack.address,
        stack_cf: cpu.stack.carry,
        halted: cpu.status.halted,
        fault: cpu.status.fault,
        pa: cpu.outputs.pa,
        channel: cpu.outputs.channel,
        mode: cpu.outputs.mode,
        pm: cpu.pins.pm,
        ps: cpu.pins.ps,
        pp: cpu.pins.pp,
        int: cpu.pins.intr,
        options: plain::Options {
            rate: cpu.options.rate,
            commons: cpu.options.commons,
            wake_pm: cpu.options.pm,
            wake_ps: cpu.options.ps,
            wake_pp: cpu.options.pp,
        },
        cycles: cpu.cycles,
        memory: machine.memory,
        strays: machine.gap as u64,
    }
}

pub fn options(o: &plain::Options) -> ht1130::Options {
    ht1130::Options {
        rate: o.rate,
        commons: o.commons,
        pm: o.wake_pm,
        ps: o.wake_ps,
        pp: o.wake_pp,
    }
}

pub fn number(result: Result<(), ht1130::Refusal>) -> u8 {
    result.map_or_else(|refusal| refusal.number(), |()| 0)
}

pub fn gap_count(machine: &ht1130::Machine) -> u64 {
    // SAFETY: the record is valid for the call.
    unsafe { ffi::ht1130_gap_count(machine) }
}

pub fn check(mask: &[u8], marks: &mut [u8]) -> u64 {
    // SAFETY: both slices are valid for the call and cannot overlap.
    unsafe { ffi::ht1130_check(mask.as_ptr(), mask.len(), marks.as_mut_ptr(), marks.len()) }
}

pub fn way(mask: &[u8], list: &mut [u8]) -> u64 {
    // SAFETY: both slices are valid for the call and cannot overlap.
    unsafe { ffi::ht1130_way(mask.as_ptr(), mask.len(), list.as_mut_ptr(), list.len()) }
}

pub fn bound(mask: &[u8], address: u16, level: u8) -> u64 {
    // SAFETY: the slice is valid for the call.
    unsafe { ffi::ht1130_bound(mask.as_ptr(), mask.len(), address, level) }
}

pub fn check_script(mask: &[u8], script: &[u8], room: usize) -> u64 {
    // SAFETY: both slices are valid for the call.
    unsafe {
        ffi::ht1130_check_script(
            mask.as_ptr(),
            mask.len(),
            script.as_ptr(),
            script.len(),
            room,
        )
    }
}

pub fn run_script(mask: &[u8], script: &[u8], out: &mut [u8]) -> u64 {
    // SAFETY: the slices are valid for the call; `out` cannot overlap the others.
    unsafe {
        ffi::ht1130_run_script(
            mask.as_ptr(),
            mask.len(),
            script.as_ptr(),
            script.len(),
            out.as_mut_ptr(),
            out.len(),
        )
    }
}

pub fn read(mask: &[u8], address: u16) -> u64 {
    // SAFETY: the slice is valid for the call.
    unsafe { ffi::ht1130_read(mask.as_ptr(), mask.len(), address) }
}

pub fn write(form: u8, a: u8, b: u16) -> u64 {
    // SAFETY: numbers only.
    unsafe { ffi::ht1130_write(form, a, b) }
}

pub fn assemble(text: &[u8], out: &mut [u8]) -> u64 {
    // SAFETY: both slices are valid for the call and cannot overlap.
    unsafe { ffi::ht1130_assemble(text.as_ptr(), text.len(), out.as_mut_ptr(), out.len()) }
}

pub fn glass_read(picture: &[u8]) -> u64 {
    // SAFETY: the slice is valid for the call.
    unsafe { ffi::ht1130_glass_read(picture.as_ptr(), picture.len()) }
}

pub fn glass_draw(dark: u8, value: i32, places: u8, picture: &mut [u8]) -> u64 {
    // SAFETY: the slice is valid for the call.
    unsafe { ffi::ht1130_glass_draw(dark, value, places, picture.as_mut_ptr(), picture.len()) }
}

pub fn reading(machine: &ht1130::Machine) -> u64 {
    // SAFETY: the record is valid for the call.
    unsafe { ffi::ht1130_reading(machine) }
}

/// What the safe functions answer, as the plain glass says it.
pub fn plain_reading(
    answer: Result<ht1130::Reading, ht1130::GlassRefusal>,
) -> Result<plain_glass::Reading, plain_glass::GlassRefusal> {
    match answer {
        Ok(ht1130::Reading::Dark) => Ok(plain_glass::Reading::Dark),
        Ok(ht1130::Reading::Number { value, places }) => {
            Ok(plain_glass::Reading::Number { value, places })
        }
        Err(refused) => Err((refused.refusal.number(), refused.digit)),
    }
}

/// The plain answers as the header packs them.
pub mod packed {
    use crate::plain::{Bound, Failure, Instruction, Refusal, ScriptRefusal};
    use crate::plain_asm::TextRefusal;
    use crate::plain_glass::{GlassRefusal, Reading};

    pub fn verdict(result: &Result<Option<Failure>, Refusal>) -> u64 {
        match result {
            Err(refusal) => *refusal as u64,
            Ok(None) => 0,
            Ok(Some(f)) => {
                (f.fault as u64) << 8 | (f.level as u64) << 16 | (f.address as u64) << 32
            }
        }
    }

    /// What `way` and `gap_count` answer.
    pub fn counted(result: &Result<u16, Refusal>) -> u64 {
        match result {
            Err(refusal) => *refusal as u64,
            Ok(count) => (*count as u64) << 32,
        }
    }

    pub fn bound(result: Result<Bound, Refusal>) -> u64 {
        match result {
            Err(refusal) => refusal as u64,
            Ok(Bound::NotReached) => 0,
            Ok(Bound::NoBound) => 1 << 8,
            Ok(Bound::Cycles(cycles)) => 2 << 8 | (cycles as u64) << 32,
        }
    }

    pub fn script(result: &Result<usize, ScriptRefusal>) -> u64 {
        match result {
            Err(r) => r.refusal as u64 | (r.offset as u64) << 32,
            Ok(_) => 0,
        }
    }

    pub fn text(result: &Result<(), TextRefusal>) -> u64 {
        match result {
            Err(r) => r.refusal as u64 | (r.line as u64) << 32,
            Ok(()) => 0,
        }
    }

    pub fn instruction(result: &Result<Option<Instruction>, Refusal>) -> u64 {
        match result {
            Err(refusal) => *refusal as u64,
            Ok(None) => 1 << 8,
            Ok(Some(i)) => {
                (i.form as u64) << 16
                    | (i.a as u64) << 24
                    | (i.b as u64) << 32
                    | (i.length as u64) << 48
                    | (i.cycles as u64) << 56
            }
        }
    }

    pub fn code(result: &Result<(u8, u8, u8), Refusal>) -> u64 {
        match result {
            Err(refusal) => *refusal as u64,
            Ok((length, first, second)) => {
                (*length as u64) << 8 | (*first as u64) << 16 | (*second as u64) << 24
            }
        }
    }

    /// What `glass_read` and `reading` answer.
    pub fn reading(result: &Result<Reading, GlassRefusal>) -> u64 {
        match *result {
            Err((refusal, digit)) => refusal as u64 | (digit as u64) << 8,
            Ok(Reading::Dark) => 1 << 16,
            Ok(Reading::Number { value, places }) => {
                (places as u64) << 24 | (value as u32 as u64) << 32
            }
        }
    }

    pub fn drawn(result: &Result<(), GlassRefusal>) -> u64 {
        match *result {
            Err((refusal, digit)) => refusal as u64 | (digit as u64) << 8,
            Ok(()) => 0,
        }
    }
}
