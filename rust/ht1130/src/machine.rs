//! The machine record, laid out as `ht1130_machine`, and its options.

/// Nibbles of a starting image: ACC, R0-R4, then the data memory.
pub const IMAGE: usize = 166;
/// The timer rate that stands for the external clock.
pub const EXTERNAL_CLOCK: u8 = 255;
/// The sound channel that stands for off.
pub const SOUND_OFF: u8 = 16;

/// The working registers, each a nibble.
#[repr(C)]
#[derive(Clone, Copy, PartialEq, Eq, Debug)]
pub struct Registers {
    /// The accumulator.
    pub acc: u8,
    /// R0, low half of the pointer R1R0.
    pub r0: u8,
    /// R1, high half of the pointer R1R0.
    pub r1: u8,
    /// R2, low half of the pointer R3R2.
    pub r2: u8,
    /// R3, high half of the pointer R3R2.
    pub r3: u8,
    /// R4.
    pub r4: u8,
}

/// Program counter and flags.
#[repr(C)]
#[derive(Clone, Copy, PartialEq, Eq, Debug)]
pub struct Control {
    /// The program counter, 0 to 4,095.
    pub pc: u16,
    /// The carry flag, 0 or 1.
    pub cf: u8,
    /// The timer flag, 0 or 1.
    pub tf: u8,
}

/// The timer.
#[repr(C)]
#[derive(Clone, Copy, PartialEq, Eq, Debug)]
pub struct Timer {
    /// Its count.
    pub count: u8,
    /// Whether it counts, 0 or 1.
    pub running: u8,
}

/// The interrupt state.
#[repr(C)]
#[derive(Clone, Copy, PartialEq, Eq, Debug)]
pub struct Interrupts {
    /// The enable flag, 0 or 1.
    pub enabled: u8,
    /// A held edge, 0 or 1.
    pub held: u8,
    /// 0 main program, 1 subroutine, 2 interrupt.
    pub level: u8,
}

/// The stack register.
#[repr(C)]
#[derive(Clone, Copy, PartialEq, Eq, Debug)]
pub struct Stack {
    /// The address to return to, 0 to 4,095.
    pub address: u16,
    /// The carry flag that RETI brings back, 0 or 1.
    pub carry: u8,
}

/// Why the machine does not step.
#[repr(C)]
#[derive(Clone, Copy, PartialEq, Eq, Debug)]
pub struct Status {
    /// 1 after HALT, until something wakes the machine.
    pub halted: u8,
    /// 0 none, 1 not an instruction, 2 CALL outside the main program, 3 return inside it.
    pub fault: u8,
}

/// What the machine puts out.
#[repr(C)]
#[derive(Clone, Copy, PartialEq, Eq, Debug)]
pub struct Outputs {
    /// Port A, a nibble.
    pub pa: u8,
    /// The sound channel, 0 to 15, or [`SOUND_OFF`].
    pub channel: u8,
    /// The sound mode, 0 once, 1 loop.
    pub mode: u8,
}

/// The levels at the input pins.
#[repr(C)]
#[derive(Clone, Copy, PartialEq, Eq, Debug)]
pub struct Pins {
    /// Port M, a nibble.
    pub pm: u8,
    /// Port S, a nibble.
    pub ps: u8,
    /// Port P, a nibble.
    pub pp: u8,
    /// INT, 0 or 1.
    pub intr: u8,
}

/// The mask options. The default is rate 0, 4 commons, no wake bits.
#[repr(C)]
#[derive(Clone, Copy, PartialEq, Eq, Debug)]
pub struct Options {
    /// The timer counts at the system clock over 2 to this: 0 to 13 but not 6,
    /// or [`EXTERNAL_CLOCK`].
    pub rate: u8,
    /// LCD commons, 3 or 4.
    pub commons: u8,
    /// The bits of port M that wake a halted machine.
    pub pm: u8,
    /// The bits of port S that wake a halted machine.
    pub ps: u8,
    /// The bits of port P that wake a halted machine.
    pub pp: u8,
}

impl Default for Options {
    fn default() -> Options {
        Options {
            rate: 0,
            commons: 4,
            pm: 0,
            ps: 0,
            pp: 0,
        }
    }
}

/// A machine without its memory and its count of strays.
#[repr(C)]
#[derive(Clone, Copy, PartialEq, Eq, Debug)]
pub struct Cpu {
    /// ACC, R0-R4.
    pub registers: Registers,
    /// PC, CF, TF.
    pub control: Control,
    /// The timer.
    pub timer: Timer,
    /// The interrupt state and the level.
    pub interrupts: Interrupts,
    /// The stack register.
    pub stack: Stack,
    /// Halted, fault.
    pub status: Status,
    /// PA and sound.
    pub outputs: Outputs,
    /// The input pins.
    pub pins: Pins,
    /// The mask options.
    pub options: Options,
    /// The cycles spent since power-on; goes on past its largest value to 0.
    pub cycles: u32,
}

/// The machine record, laid out as `ht1130_machine`.
///
/// Any field may be written; a call refuses what is out of range with
/// [`Refusal::Machine`](crate::Refusal::Machine).
#[repr(C)]
#[derive(Clone, Copy, PartialEq, Eq, Debug)]
pub struct Machine {
    /// All but the memory and the count.
    pub cpu: Cpu,
    /// Data memory 00h-7Fh, then the display E0h-FFh, nibbles.
    pub memory: [u8; 160],
    /// Reads and writes at 80h-DFh, as [`gap_count`](crate::gap_count) gives them. Any value is in
    /// range.
    pub gap: u16,
}

impl Machine {
    /// A record of zeros. It is no valid machine: power it on first.
    pub const fn zeroed() -> Machine {
        Machine {
            cpu: Cpu {
                registers: Registers {
                    acc: 0,
                    r0: 0,
                    r1: 0,
                    r2: 0,
                    r3: 0,
                    r4: 0,
                },
                control: Control {
                    pc: 0,
                    cf: 0,
                    tf: 0,
                },
                timer: Timer {
                    count: 0,
                    running: 0,
                },
                interrupts: Interrupts {
                    enabled: 0,
                    held: 0,
                    level: 0,
                },
                stack: Stack {
                    address: 0,
                    carry: 0,
                },
                status: Status {
                    halted: 0,
                    fault: 0,
                },
                outputs: Outputs {
                    pa: 0,
                    channel: 0,
                    mode: 0,
                },
                pins: Pins {
                    pm: 0,
                    ps: 0,
                    pp: 0,
                    intr: 0,
                },
                options: Options {
                    rate: 0,
                    commons: 0,
                    pm: 0,
                    ps: 0,
                    pp: 0,
                },
                cycles: 0,
            },
            memory: [0; 160],
            gap: 0,
        }
    }
}
