//! A plain HT1130, written from the data sheet, document 01 and document 02's
//! requests alone. It knows nothing of the proved library: the two are compared.

pub const MASK: usize = 4096;
pub const IMAGE: usize = 166;
pub const REPORT: usize = 48;
pub const SCRIPT: usize = 65535;

pub type Mask = [u8; MASK];

/// A refusal by document 01's number.
pub type Refusal = u8;

/// The rate that stands for the external clock.
pub const EXTERNAL: u8 = 255;
/// The sound channel that stands for off.
pub const SOUND_OFF: u8 = 16;

/// Data memory 00h-7Fh, then E0h-FFh.
pub const MEMORY: usize = 160;

#[derive(Clone, Copy, PartialEq, Eq, Debug)]
pub struct Options {
    pub rate: u8,
    pub commons: u8,
    pub wake_pm: u8,
    pub wake_ps: u8,
    pub wake_pp: u8,
}

impl Options {
    fn allowed(&self) -> bool {
        (self.rate <= 13 && self.rate != 6 || self.rate == EXTERNAL)
            && (self.commons == 3 || self.commons == 4)
            && self.wake_pm | self.wake_ps | self.wake_pp <= 15
    }
}

#[derive(Clone, Copy, PartialEq, Eq, Debug)]
pub struct Machine {
    pub acc: u8,
    pub r: [u8; 5],
    pub pc: u16,
    pub cf: u8,
    pub tf: u8,
    pub timer: u8,
    pub running: u8,
    pub enabled: u8,
    pub held: u8,
    pub level: u8,
    pub stack: u16,
    pub stack_cf: u8,
    pub halted: u8,
    pub fault: u8,
    pub pa: u8,
    pub channel: u8,
    pub mode: u8,
    pub pm: u8,
    pub ps: u8,
    pub pp: u8,
    pub int: u8,
    pub options: Options,
    pub cycles: u32,
    pub memory: [u8; MEMORY],
    /// Every access to 80h-DFh since the last power-on. It goes on where the
    /// machine's count stops: `recorded`.
    pub strays: u64,
}

pub const FAULT_UNREADABLE: u8 = 1;
pub const FAULT_CALL: u8 = 2;
pub const FAULT_RETURN: u8 = 3;

pub const POWER_ON: u16 = 1;
pub const RUN: u16 = 2;
pub const PINS: u16 = 3;
pub const INT: u16 = 4;
pub const TMCLK: u16 = 5;
pub const RES: u16 = 6;

impl Machine {
    /// What a record holds before its first power-on.
    pub fn zeroed() -> Machine {
        Machine {
            acc: 0,
            r: [0; 5],
            pc: 0,
            cf: 0,
            tf: 0,
            timer: 0,
            running: 0,
            enabled: 0,
            held: 0,
            level: 0,
            stack: 0,
            stack_cf: 0,
            halted: 0,
            fault: 0,
            pa: 0,
            channel: 0,
            mode: 0,
            pm: 0,
            ps: 0,
            pp: 0,
            int: 0,
            options: Options {
                rate: 0,
                commons: 0,
                wake_pm: 0,
                wake_ps: 0,
                wake_pp: 0,
            },
            cycles: 0,
            memory: [0; MEMORY],
            strays: 0,
        }
    }

    pub fn power_on(&mut self, options: Options, image: &[u8]) -> Result<(), Refusal> {
        let image: &[u8; IMAGE] = image.try_into().map_err(|_| 2)?;
        if !nibbles(image) {
            return Err(3);
        }
        if !options.allowed() {
            return Err(4);
        }
        self.acc = image[0];
        self.r.copy_from_slice(&image[1..6]);
        self.memory.copy_from_slice(&image[6..]);
        self.options = options;
        self.pm = 15;
        self.ps = 15;
        self.pp = 15;
        self.int = 1;
        self.cycles = 0;
        self.strays = 0;
        self.reset();
        Ok(())
    }

    fn reset(&mut self) {
        self.pc = 0;
        self.timer = 0;
        self.tf = 0;
        self.cf = 0;
        self.enabled = 0;
        self.held = 0;
        self.level = 0;
        self.stack = 0;
        self.stack_cf = 0;
        self.halted = 0;
        self.fault = 0;
        self.running = 0;
        self.pa = 15;
        self.channel = SOUND_OFF;
        self.mode = 0;
    }

    pub fn in_range(&self) -> bool {
        let small = self.acc
            | self.r[0]
            | self.r[1]
            | self.r[2]
            | self.r[3]
            | self.r[4]
            | self.pa
            | self.pm
            | self.ps
            | self.pp;
        let flags = self.cf
            | self.tf
            | self.running
            | self.enabled
            | self.held
            | self.stack_cf
            | self.halted
            | self.mode
            | self.int;
        small <= 15
            && flags <= 1
            && self.pc | self.stack <= 0xFFF
            && self.level <= 2
            && self.fault <= 3
            && self.channel <= SOUND_OFF
            && (self.halted == 0 || self.fault == 0)
            && self.options.allowed()
            && nibbles(&self.memory)
    }

    /// The machine as its record has it: 65,535 stands for more strays.
    pub fn recorded(&self) -> Machine {
        Machine {
            strays: self.strays.min(65535),
            ..*self
        }
    }

    pub fn gap_count(&self) -> Result<u16, Refusal> {
        if !self.in_range() {
            return Err(5);
        }
        Ok(self.recorded().strays as u16)
    }

    /// One event on a lent machine. What the kind does not name is not looked at.
    pub fn apply(
        &mut self,
        kind: u16,
        count: u16,
        a: u8,
        b: u8,
        c: u8,
        mask: &[u8],
    ) -> Result<(), Refusal> {
        if kind == RUN && mask.len() != MASK {
            return Err(1);
        }
        if kind == PINS && a | b | c > 15 || kind == INT && a > 1 {
            return Err(3);
        }
        if !self.in_range() {
            return Err(5);
        }
        match kind {
            RUN => self.run(count, mask.try_into().map_err(|_| 1)?),
            PINS => self.set_pins(a, b, c),
            INT => self.set_int(a),
            TMCLK => self.clock(count),
            RES => self.reset(),
            _ => return Err(7),
        }
        Ok(())
    }

    fn set_pins(&mut self, pm: u8, ps: u8, pp: u8) {
        let o = &self.options;
        let wakes =
            self.pm & !pm & o.wake_pm | self.ps & !ps & o.wake_ps | self.pp & !pp & o.wake_pp;
        if self.halted != 0 && wakes != 0 {
            self.halted = 0;
            self.held = 1;
        }
        self.pm = pm;
        self.ps = ps;
        self.pp = pp;
    }

    fn set_int(&mut self, level: u8) {
        if self.int == 1 && level == 0 {
            self.halted = 0;
            self.held = 1;
        }
        self.int = level;
    }

    fn clock(&mut self, edges: u16) {
        if self.options.rate == EXTERNAL && self.running != 0 {
            self.advance(edges as u32);
        }
    }

    fn advance(&mut self, by: u32) {
        let sum = self.timer as u32 + by;
        self.timer = sum as u8;
        if sum > 255 {
            self.tf = 1;
        }
    }

    pub fn run(&mut self, count: u16, mask: &Mask) {
        for _ in 0..count {
            if self.halted | self.fault != 0 {
                break;
            }
            self.step(mask);
        }
    }

    /// One step of a machine that is neither halted nor faulted.
    fn step(&mut self, mask: &Mask) {
        let spent = if self.level == 0 && self.enabled != 0 && self.held | self.tf != 0 {
            self.interrupt();
            2
        } else {
            match self.execute(mask) {
                Ok(spent) => spent,
                Err(fault) => {
                    self.fault = fault;
                    return;
                }
            }
        };
        if self.running != 0 && self.options.rate != EXTERNAL {
            let before = self.cycles % 2048 * 4;
            let rate = self.options.rate & 15;
            self.advance(((before + 4 * spent) >> rate) - (before >> rate));
        }
        self.cycles = self.cycles.wrapping_add(spent);
    }

    fn interrupt(&mut self) {
        self.stack = self.pc;
        self.stack_cf = self.cf;
        self.level = 2;
        if self.held != 0 {
            self.held = 0;
            self.pc = 8;
        } else {
            self.tf = 0;
            self.pc = 4;
        }
    }

    /// Runs one instruction and returns its cycles. A fault changes nothing.
    fn execute(&mut self, mask: &Mask) -> Result<u32, u8> {
        let op = byte(mask, self.pc);
        match op {
            0x00..=0x3F | 0x48..=0x4F | 0x70..=0x7F => self.short(op, mask),
            _ => self.long(op, byte(mask, self.pc + 1)),
        }
    }

    /// One-byte instructions, and HALT.
    fn short(&mut self, op: u8, mask: &Mask) -> Result<u32, u8> {
        let next = (self.pc + 1) & 0xFFF;
        match op {
            0x00 => {
                self.cf = self.acc & 1;
                self.acc = self.acc >> 1 | self.cf << 3;
            }
            0x01 => {
                self.cf = self.acc >> 3;
                self.acc = self.acc << 1 & 15 | self.cf;
            }
            0x02 => {
                let out = self.acc & 1;
                self.acc = self.acc >> 1 | self.cf << 3;
                self.cf = out;
            }
            0x03 => {
                let out = self.acc >> 3;
                self.acc = self.acc << 1 & 15 | self.cf;
                self.cf = out;
            }
            0x04 => self.acc = self.load(),
            0x05 => self.store(self.acc),
            0x06 => self.acc = self.load_at(self.r[3], self.r[2]),
            0x07 => self.store_at(self.r[3], self.r[2], self.acc),
            0x08..=0x0B => {
                let m = self.load();
                match op {
                    0x08 => self.add(m, self.cf),
                    0x09 => self.add(m, 0),
                    0x0A => self.add(15 - m, self.cf),
                    _ => self.add(15 - m, 1),
                }
            }
            0x0C => {
                let m = self.load();
                self.store((m + 1) & 15);
            }
            0x0D => {
                let m = self.load();
                self.store((m + 15) & 15);
            }
            0x0E => {
                let m = self.load_at(self.r[3], self.r[2]);
                self.store_at(self.r[3], self.r[2], (m + 1) & 15);
            }
            0x0F => {
                let m = self.load_at(self.r[3], self.r[2]);
                self.store_at(self.r[3], self.r[2], (m + 15) & 15);
            }
            0x10 => self.r[0] = (self.r[0] + 1) & 15,
            0x11 => self.r[0] = (self.r[0] + 15) & 15,
            0x12 => self.r[1] = (self.r[1] + 1) & 15,
            0x13 => self.r[1] = (self.r[1] + 15) & 15,
            0x14 => self.r[2] = (self.r[2] + 1) & 15,
            0x15 => self.r[2] = (self.r[2] + 15) & 15,
            0x16 => self.r[3] = (self.r[3] + 1) & 15,
            0x17 => self.r[3] = (self.r[3] + 15) & 15,
            0x18 => self.r[4] = (self.r[4] + 1) & 15,
            0x19 => self.r[4] = (self.r[4] + 15) & 15,
            0x1A => self.acc &= self.load(),
            0x1B => self.acc ^= self.load(),
            0x1C => self.acc |= self.load(),
            0x1D => {
                let m = self.load();
                self.store(m & self.acc);
            }
            0x1E => {
                let m = self.load();
                self.store(m ^ self.acc);
            }
            0x1F => {
                let m = self.load();
                self.store(m | self.acc);
            }
            0x20 => self.r[0] = self.acc,
            0x21 => self.acc = self.r[0],
            0x22 => self.r[1] = self.acc,
            0x23 => self.acc = self.r[1],
            0x24 => self.r[2] = self.acc,
            0x25 => self.acc = self.r[2],
            0x26 => self.r[3] = self.acc,
            0x27 => self.acc = self.r[3],
            0x28 => self.r[4] = self.acc,
            0x29 => self.acc = self.r[4],
            0x2A => self.cf = 0,
            0x2B => self.cf = 1,
            0x2C => self.enabled = 1,
            0x2D => self.enabled = 0,
            0x2E | 0x2F => {
                if self.level == 0 {
                    return Err(FAULT_RETURN);
                }
                if op == 0x2F {
                    self.cf = self.stack_cf;
                }
                self.level = 0;
                self.pc = self.stack;
                return Ok(1);
            }
            0x30 => self.pa = self.acc,
            0x31 => self.acc = (self.acc + 1) & 15,
            0x32 => self.acc = self.pm,
            0x33 => self.acc = self.ps,
            0x34 => self.acc = self.pp,
            0x36 => {
                if self.acc > 9 || self.cf != 0 {
                    self.acc = (self.acc + 6) & 15;
                    self.cf = 1;
                }
            }
            0x37 => {
                if byte(mask, next) != 0x3E {
                    return Err(FAULT_UNREADABLE);
                }
                self.halted = 1;
                self.pc = (next + 1) & 0xFFF;
                return Ok(2);
            }
            0x38 => self.running = 1,
            0x39 => self.running = 0,
            0x3A => self.acc = self.timer & 15,
            0x3B => self.acc = self.timer >> 4,
            0x3C => self.timer = self.timer & 0xF0 | self.acc,
            0x3D => self.timer = self.timer & 0x0F | self.acc << 4,
            0x3E => {}
            0x3F => self.acc = (self.acc + 15) & 15,
            0x48 => self.mode = 0,
            0x49 => self.mode = 1,
            0x4A => self.channel = SOUND_OFF,
            0x4B => self.channel = self.acc,
            0x4C..=0x4F => {
                let page = if op & 1 == 0 { next & 0xF00 } else { 0xF00 };
                let to_memory = op & 2 != 0;
                let low = if to_memory { self.r[4] } else { self.load() };
                let code = byte(mask, page | (self.acc as u16) << 4 | low as u16);
                if to_memory {
                    self.store(code >> 4);
                } else {
                    self.r[4] = code >> 4;
                }
                self.acc = code & 15;
                self.pc = next;
                return Ok(2);
            }
            0x70..=0x7F => self.acc = op & 15,
            _ => return Err(FAULT_UNREADABLE),
        }
        self.pc = next;
        Ok(1)
    }

    /// Two-byte instructions of two cycles.
    fn long(&mut self, op: u8, second: u8) -> Result<u32, u8> {
        let next = (self.pc + 2) & 0xFFF;
        let target = (op as u16) << 8 | second as u16;
        if op < 0x70 && op != 0x47 && second > 15 {
            return Err(FAULT_UNREADABLE);
        }
        let taken = match op >> 3 {
            0x10 => self.acc & 1 != 0,
            0x11 => self.acc & 2 != 0,
            0x12 => self.acc & 4 != 0,
            0x13 => self.acc & 8 != 0,
            0x14 => self.r[0] != 0,
            0x15 => self.r[1] != 0,
            0x16 => self.acc == 0,
            0x17 => self.acc != 0,
            0x18 => self.cf != 0,
            0x19 => self.cf == 0,
            0x1A => std::mem::take(&mut self.tf) != 0,
            0x1B => self.r[4] != 0,
            0x1C | 0x1D => {
                self.pc = target & 0xFFF;
                return Ok(2);
            }
            0x1E | 0x1F => {
                if self.level != 0 {
                    return Err(FAULT_CALL);
                }
                self.stack = next;
                self.level = 1;
                self.pc = target & 0xFFF;
                return Ok(2);
            }
            _ => {
                match op {
                    0x40 => self.add(second, 0),
                    0x41 => self.add(15 - second, 1),
                    0x42 => self.acc &= second,
                    0x43 => self.acc ^= second,
                    0x44 => self.acc |= second,
                    0x45 => self.channel = second,
                    0x46 => self.r[4] = second,
                    0x47 => self.timer = second,
                    0x50..=0x5F => {
                        self.r[0] = op & 15;
                        self.r[1] = second;
                    }
                    _ => {
                        self.r[2] = op & 15;
                        self.r[3] = second;
                    }
                }
                false
            }
        };
        self.pc = if taken {
            next & 0x800 | target & 0x7FF
        } else {
            next
        };
        Ok(2)
    }

    fn add(&mut self, operand: u8, carry: u8) {
        let sum = self.acc + operand + carry;
        self.acc = sum & 15;
        self.cf = (sum > 15) as u8;
    }

    fn load(&mut self) -> u8 {
        self.load_at(self.r[1], self.r[0])
    }

    fn store(&mut self, value: u8) {
        self.store_at(self.r[1], self.r[0], value)
    }

    fn load_at(&mut self, high: u8, low: u8) -> u8 {
        match high << 4 | low {
            address @ 0..=0x7F => self.memory[address as usize],
            address @ 0xE0..=0xFF => self.memory[address as usize - 0x60],
            _ => {
                self.strays += 1;
                0
            }
        }
    }

    fn store_at(&mut self, high: u8, low: u8, value: u8) {
        match high << 4 | low {
            address @ 0..=0x7F => self.memory[address as usize] = value,
            address @ 0xE0..=0xFF => self.memory[address as usize - 0x60] = value,
            _ => self.strays += 1,
        }
    }

    pub fn report(&self, out: &mut [u8]) -> Result<(), Refusal> {
        let out: &mut [u8; REPORT] = out.try_into().map_err(|_| 2)?;
        if !self.in_range() {
            return Err(5);
        }
        self.write_report(out);
        Ok(())
    }

    fn write_report(&self, out: &mut [u8; REPORT]) {
        out[..4].copy_from_slice(&[44, 0, 16, 0]);
        out[4..6].copy_from_slice(&self.pc.to_le_bytes());
        out[6..10].copy_from_slice(&self.cycles.to_le_bytes());
        out[10..16].copy_from_slice(&[
            self.level,
            self.halted,
            self.fault,
            self.pa,
            self.channel,
            self.mode,
        ]);
        let lit = match (self.halted, self.options.commons) {
            (1, _) => 0,
            (_, 3) => 7,
            _ => 15,
        };
        for (to, from) in out[16..].iter_mut().zip(&self.memory[128..]) {
            *to = from & lit;
        }
    }
}

fn nibbles(bytes: &[u8]) -> bool {
    bytes.iter().fold(0, |all, byte| all | byte) <= 15
}

fn byte(mask: &Mask, address: u16) -> u8 {
    mask[(address & 0xFFF) as usize]
}

/// A refused script: the refusal, and the offset of its record.
#[derive(Clone, Copy, PartialEq, Eq, Debug)]
pub struct ScriptRefusal {
    pub refusal: Refusal,
    pub offset: u16,
}

fn refuse(refusal: Refusal, offset: usize) -> Result<usize, ScriptRefusal> {
    Err(ScriptRefusal {
        refusal,
        offset: offset as u16,
    })
}

fn word(bytes: &[u8], at: usize) -> u16 {
    u16::from_le_bytes([bytes[at], bytes[at + 1]])
}

/// The records of a script whose lengths are right: offset, kind and payload.
fn records(script: &[u8]) -> impl Iterator<Item = (usize, u16, &[u8])> {
    let mut at = 0;
    std::iter::from_fn(move || {
        if at == script.len() {
            return None;
        }
        let start = at;
        at += 4 + word(script, start) as usize;
        Some((start, word(script, start + 2), &script[start + 4..at]))
    })
}

fn payload_length(kind: u16) -> Option<usize> {
    match kind {
        POWER_ON => Some(6),
        RUN | TMCLK => Some(2),
        PINS => Some(3),
        INT => Some(1),
        RES => Some(0),
        _ => None,
    }
}

fn options(payload: &[u8]) -> Options {
    Options {
        rate: payload[0],
        commons: payload[1],
        wake_pm: payload[2],
        wake_ps: payload[3],
        wake_pp: payload[4],
    }
}

/// Checks a script for a report buffer of `room` bytes; returns how many
/// records it has.
pub fn check_script(mask: &[u8], script: &[u8], room: usize) -> Result<usize, ScriptRefusal> {
    if mask.len() != MASK {
        return refuse(1, 0);
    }
    if script.len() > SCRIPT {
        return refuse(6, 0);
    }
    let mut at = 0;
    while at < script.len() {
        let left = script.len() - at;
        if left < 4 || left - 4 < word(script, at) as usize {
            return refuse(6, at);
        }
        let length = word(script, at) as usize;
        match payload_length(word(script, at + 2)) {
            None => return refuse(7, at),
            Some(expected) if expected != length => return refuse(6, at),
            Some(_) => at += 4 + length,
        }
    }
    if script.is_empty() || word(script, 2) != POWER_ON {
        return refuse(8, 0);
    }
    for (offset, kind, payload) in records(script) {
        let bad = match kind {
            POWER_ON => payload[5] > 15,
            PINS => !nibbles(payload),
            INT => payload[0] > 1,
            _ => false,
        };
        if bad {
            return refuse(3, offset);
        }
    }
    let mut count = 0;
    for (offset, kind, payload) in records(script) {
        if kind == POWER_ON && !options(payload).allowed() {
            return refuse(4, offset);
        }
        count += 1;
    }
    if room < REPORT * count {
        return refuse(9, 0);
    }
    Ok(count)
}

/// Runs a script and writes a report for each record; returns how many.
pub fn run_script(mask: &[u8], script: &[u8], out: &mut [u8]) -> Result<usize, ScriptRefusal> {
    let count = check_script(mask, script, out.len())?;
    let mask: &Mask = mask.try_into().expect("checked above");
    let mut machine = Machine::zeroed();
    for ((_, kind, payload), out) in records(script).zip(out.chunks_exact_mut(REPORT)) {
        match kind {
            POWER_ON => machine
                .power_on(options(payload), &[payload[5]; IMAGE])
                .expect("checked above"),
            RUN => machine.run(word(payload, 0), mask),
            PINS => machine.set_pins(payload[0], payload[1], payload[2]),
            INT => machine.set_int(payload[0]),
            TMCLK => machine.clock(word(payload, 0)),
            _ => machine.reset(),
        }
        machine.write_report(out.try_into().expect("chunks of a report"));
    }
    Ok(count)
}

/// An instruction by the numbers of ht1130.h; operands it lacks are 0.
#[derive(Clone, Copy, PartialEq, Eq, Debug)]
pub struct Instruction {
    pub form: u8,
    pub a: u8,
    pub b: u16,
    pub length: u8,
    pub cycles: u8,
}

/// The forms in the order of the data sheet's summary.
pub mod form {
    pub const ADD_A_M: u8 = 0;
    pub const ADC_A_M: u8 = 1;
    pub const SUB_A_M: u8 = 2;
    pub const SBC_A_M: u8 = 3;
    pub const ADD_A_X: u8 = 4;
    pub const SUB_A_X: u8 = 5;
    pub const DAA: u8 = 6;
    pub const AND_A_M: u8 = 7;
    pub const OR_A_M: u8 = 8;
    pub const XOR_A_M: u8 = 9;
    pub const AND_M_A: u8 = 10;
    pub const OR_M_A: u8 = 11;
    pub const XOR_M_A: u8 = 12;
    pub const AND_A_X: u8 = 13;
    pub const OR_A_X: u8 = 14;
    pub const XOR_A_X: u8 = 15;
    pub const INC_A: u8 = 16;
    pub const INC_RN: u8 = 17;
    pub const INC_PAIR: u8 = 18;
    pub const DEC_A: u8 = 19;
    pub const DEC_RN: u8 = 20;
    pub const DEC_PAIR: u8 = 21;
    pub const MOV_A_RN: u8 = 22;
    pub const MOV_RN_A: u8 = 23;
    pub const MOV_A_PAIR: u8 = 24;
    pub const MOV_PAIR_A: u8 = 25;
    pub const MOV_A_X: u8 = 26;
    pub const MOV_PAIR_XX: u8 = 27;
    pub const MOV_R4_X: u8 = 28;
    pub const RL_A: u8 = 29;
    pub const RLC_A: u8 = 30;
    pub const RR_A: u8 = 31;
    pub const RRC_A: u8 = 32;
    pub const IN_A_PORT: u8 = 33;
    pub const OUT_PA_A: u8 = 34;
    pub const JMP: u8 = 35;
    pub const BRANCH: u8 = 36;
    pub const CALL: u8 = 37;
    pub const RET: u8 = 38;
    pub const RETI: u8 = 39;
    pub const CLC: u8 = 40;
    pub const STC: u8 = 41;
    pub const EI: u8 = 42;
    pub const DI: u8 = 43;
    pub const NOP: u8 = 44;
    pub const TIMER_XX: u8 = 45;
    pub const TIMER_ON: u8 = 46;
    pub const TIMER_OFF: u8 = 47;
    pub const MOV_A_TMRL: u8 = 48;
    pub const MOV_A_TMRH: u8 = 49;
    pub const MOV_TMRL_A: u8 = 50;
    pub const MOV_TMRH_A: u8 = 51;
    pub const READ_R4A: u8 = 52;
    pub const READ_MR0A: u8 = 53;
    pub const SOUND_X: u8 = 54;
    pub const SOUND_A: u8 = 55;
    pub const SOUND_ONE: u8 = 56;
    pub const SOUND_LOOP: u8 = 57;
    pub const SOUND_OFF: u8 = 58;
    pub const HALT: u8 = 59;
}

/// Reads the instruction of two bytes, or none where no pattern fits.
pub fn decode(first: u8, second: u8) -> Option<Instruction> {
    use form::*;
    let low = first & 15;
    let n = first >> 1 & 7;
    let one = |form, a| {
        Some(Instruction {
            form,
            a,
            b: 0,
            length: 1,
            cycles: 1,
        })
    };
    let table = |form, a| {
        Some(Instruction {
            form,
            a,
            b: 0,
            length: 1,
            cycles: 2,
        })
    };
    let two = |form, a, b| {
        Some(Instruction {
            form,
            a,
            b,
            length: 2,
            cycles: 2,
        })
    };
    let immediate = |form| {
        if second <= 15 {
            two(form, second, 0)
        } else {
            None
        }
    };
    match first {
        0x00 => one(RR_A, 0),
        0x01 => one(RL_A, 0),
        0x02 => one(RRC_A, 0),
        0x03 => one(RLC_A, 0),
        0x04 | 0x06 => one(MOV_A_PAIR, n - 2),
        0x05 | 0x07 => one(MOV_PAIR_A, n - 2),
        0x08 => one(ADC_A_M, 0),
        0x09 => one(ADD_A_M, 0),
        0x0A => one(SBC_A_M, 0),
        0x0B => one(SUB_A_M, 0),
        0x0C | 0x0E => one(INC_PAIR, n - 6),
        0x0D | 0x0F => one(DEC_PAIR, n - 6),
        0x10..=0x19 => one(if first & 1 == 0 { INC_RN } else { DEC_RN }, n),
        0x1A => one(AND_A_M, 0),
        0x1B => one(XOR_A_M, 0),
        0x1C => one(OR_A_M, 0),
        0x1D => one(AND_M_A, 0),
        0x1E => one(XOR_M_A, 0),
        0x1F => one(OR_M_A, 0),
        0x20..=0x29 => one(if first & 1 == 0 { MOV_RN_A } else { MOV_A_RN }, n),
        0x2A => one(CLC, 0),
        0x2B => one(STC, 0),
        0x2C => one(EI, 0),
        0x2D => one(DI, 0),
        0x2E => one(RET, 0),
        0x2F => one(RETI, 0),
        0x30 => one(OUT_PA_A, 0),
        0x31 => one(INC_A, 0),
        0x32..=0x34 => one(IN_A_PORT, first - 0x32),
        0x35 => None,
        0x36 => one(DAA, 0),
        0x37 if second == 0x3E => two(HALT, 0, 0),
        0x37 => None,
        0x38 => one(TIMER_ON, 0),
        0x39 => one(TIMER_OFF, 0),
        0x3A => one(MOV_A_TMRL, 0),
        0x3B => one(MOV_A_TMRH, 0),
        0x3C => one(MOV_TMRL_A, 0),
        0x3D => one(MOV_TMRH_A, 0),
        0x3E => one(NOP, 0),
        0x3F => one(DEC_A, 0),
        0x40 => immediate(ADD_A_X),
        0x41 => immediate(SUB_A_X),
        0x42 => immediate(AND_A_X),
        0x43 => immediate(XOR_A_X),
        0x44 => immediate(OR_A_X),
        0x45 => immediate(SOUND_X),
        0x46 => immediate(MOV_R4_X),
        0x47 => two(TIMER_XX, second, 0),
        0x48 => one(SOUND_ONE, 0),
        0x49 => one(SOUND_LOOP, 0),
        0x4A => one(SOUND_OFF, 0),
        0x4B => one(SOUND_A, 0),
        0x4C | 0x4D => table(READ_R4A, first & 1),
        0x4E | 0x4F => table(READ_MR0A, first & 1),
        0x50..=0x6F if second <= 15 => {
            two(MOV_PAIR_XX, (first >> 4) - 5, (second << 4 | low) as u16)
        }
        0x50..=0x6F => None,
        0x70..=0x7F => one(MOV_A_X, low),
        0x80..=0xDF => two(
            BRANCH,
            (first >> 3) - 16,
            ((first & 7) as u16) << 8 | second as u16,
        ),
        0xE0..=0xEF => two(JMP, 0, (low as u16) << 8 | second as u16),
        0xF0..=0xFF => two(CALL, 0, (low as u16) << 8 | second as u16),
    }
}

/// The instruction at an address of a mask.
pub fn read(mask: &[u8], address: u16) -> Result<Option<Instruction>, Refusal> {
    let mask: &Mask = mask.try_into().map_err(|_| 1)?;
    if address > 0xFFF {
        return Err(5);
    }
    Ok(decode(byte(mask, address), byte(mask, address + 1)))
}

/// The bytes of an instruction: how many, the first and the second.
pub fn encode(form: u8, a: u8, b: u16) -> Result<(u8, u8, u8), Refusal> {
    use form::*;
    let one = |code| Ok((1, code, 0));
    let with = |limit: u8, first: u8, stride: u8| {
        if a <= limit {
            Ok((1, first + stride * a, 0))
        } else {
            Err(3)
        }
    };
    let immediate = |code| if a <= 15 { Ok((2, code, a)) } else { Err(3) };
    let jump = |code: u8| {
        if b <= 0xFFF {
            Ok((2, code | (b >> 8) as u8, b as u8))
        } else {
            Err(3)
        }
    };
    match form {
        ADD_A_M => one(0x09),
        ADC_A_M => one(0x08),
        SUB_A_M => one(0x0B),
        SBC_A_M => one(0x0A),
        ADD_A_X => immediate(0x40),
        SUB_A_X => immediate(0x41),
        DAA => one(0x36),
        AND_A_M => one(0x1A),
        OR_A_M => one(0x1C),
        XOR_A_M => one(0x1B),
        AND_M_A => one(0x1D),
        OR_M_A => one(0x1F),
        XOR_M_A => one(0x1E),
        AND_A_X => immediate(0x42),
        OR_A_X => immediate(0x44),
        XOR_A_X => immediate(0x43),
        INC_A => one(0x31),
        INC_RN => with(4, 0x10, 2),
        INC_PAIR => with(1, 0x0C, 2),
        DEC_A => one(0x3F),
        DEC_RN => with(4, 0x11, 2),
        DEC_PAIR => with(1, 0x0D, 2),
        MOV_A_RN => with(4, 0x21, 2),
        MOV_RN_A => with(4, 0x20, 2),
        MOV_A_PAIR => with(1, 0x04, 2),
        MOV_PAIR_A => with(1, 0x05, 2),
        MOV_A_X => with(15, 0x70, 1),
        MOV_PAIR_XX if a <= 1 && b <= 0xFF => {
            Ok((2, 0x50 + 16 * a + (b & 15) as u8, (b >> 4) as u8))
        }
        MOV_R4_X => immediate(0x46),
        RL_A => one(0x01),
        RLC_A => one(0x03),
        RR_A => one(0x00),
        RRC_A => one(0x02),
        IN_A_PORT => with(2, 0x32, 1),
        OUT_PA_A => one(0x30),
        JMP => jump(0xE0),
        BRANCH if a <= 11 && b <= 0x7FF => Ok((2, 0x80 + 8 * a + (b >> 8) as u8, b as u8)),
        CALL => jump(0xF0),
        RET => one(0x2E),
        RETI => one(0x2F),
        CLC => one(0x2A),
        STC => one(0x2B),
        EI => one(0x2C),
        DI => one(0x2D),
        NOP => one(0x3E),
        TIMER_XX => Ok((2, 0x47, a)),
        TIMER_ON => one(0x38),
        TIMER_OFF => one(0x39),
        MOV_A_TMRL => one(0x3A),
        MOV_A_TMRH => one(0x3B),
        MOV_TMRL_A => one(0x3C),
        MOV_TMRH_A => one(0x3D),
        READ_R4A => with(1, 0x4C, 1),
        READ_MR0A => with(1, 0x4E, 1),
        SOUND_X => immediate(0x45),
        SOUND_A => one(0x4B),
        SOUND_ONE => one(0x48),
        SOUND_LOOP => one(0x49),
        SOUND_OFF => one(0x4A),
        HALT => Ok((2, 0x37, 0x3E)),
        _ => Err(3),
    }
}

/// The lowest pair of a failed mask.
#[derive(Clone, Copy, PartialEq, Eq, Debug)]
pub struct Failure {
    pub fault: u8,
    pub address: u16,
    pub level: u8,
}

/// Writes the marks; answers none where the mask passed.
pub fn check(mask: &[u8], marks: &mut [u8]) -> Result<Option<Failure>, Refusal> {
    let mask: &Mask = mask.try_into().map_err(|_| 1)?;
    let marks: &mut [u8; MASK] = marks.try_into().map_err(|_| 2)?;
    marks.fill(0);
    let mut lowest: Option<Failure> = None;
    // A pair is listed when it is first marked, so the list never holds more.
    let mut work: Vec<(u16, u8)> = Vec::with_capacity(64);
    let mut reach = |work: &mut Vec<(u16, u8)>, address: u16, level: u8| {
        let mark = &mut marks[(address & 0xFFF) as usize];
        if *mark & 1 << level == 0 {
            *mark |= 1 << level;
            work.push((address, level));
        }
    };
    reach(&mut work, 0, 0);
    while let Some((address, level)) = work.pop() {
        let first = byte(mask, address);
        let second = byte(mask, address + 1);
        let target = (first as u16) << 8 | second as u16;
        let fault = match first {
            0x80..=0xDF => {
                let next = (address + 2) & 0xFFF;
                reach(&mut work, next & 0x800 | target & 0x7FF, level);
                reach(&mut work, next, level);
                0
            }
            0xE0..=0xEF => {
                reach(&mut work, target & 0xFFF, level);
                0
            }
            0xF0..=0xFF if level == 0 => {
                reach(&mut work, target & 0xFFF, 1);
                reach(&mut work, (address + 2) & 0xFFF, 0);
                0
            }
            0xF0..=0xFF => FAULT_CALL,
            0x2E | 0x2F if level == 0 => FAULT_RETURN,
            0x2E | 0x2F => 0,
            _ => match decode(first, second) {
                None => FAULT_UNREADABLE,
                Some(instruction) => {
                    if instruction.form == form::EI {
                        reach(&mut work, 4, 2);
                        reach(&mut work, 8, 2);
                    }
                    reach(
                        &mut work,
                        (address + instruction.length as u16) & 0xFFF,
                        level,
                    );
                    0
                }
            },
        };
        if fault != 0 && lowest.is_none_or(|l| (address, level) < (l.address, l.level)) {
            lowest = Some(Failure {
                fault,
                address,
                level,
            });
        }
    }
    Ok(lowest)
}

/// An address with a level.
pub type Pair = (u16, u8);

/// The pairs that may come next. Said apart from `check`, so that each can be
/// held to the other.
pub fn successors(mask: &Mask, (address, level): Pair) -> impl Iterator<Item = Pair> {
    let next = match decode(byte(mask, address), byte(mask, address + 1)) {
        None => [None; 3],
        Some(instruction) => {
            let moved = (address + instruction.length as u16) & 0xFFF;
            let target = instruction.b;
            match (instruction.form, level) {
                (form::BRANCH, _) => [
                    Some((moved, level)),
                    Some((moved & 0x800 | target, level)),
                    None,
                ],
                (form::JMP, _) => [Some((target, level)), None, None],
                (form::CALL, 0) => [Some((target, 1)), Some((moved, 0)), None],
                (form::CALL | form::RET | form::RETI, _) => [None; 3],
                (form::EI, _) => [Some((moved, level)), Some((4, 2)), Some((8, 2))],
                _ => [Some((moved, level)), None, None],
            }
        }
    };
    next.into_iter().flatten()
}

/// For each address and level the pairs of a shortest chain from address 0,
/// level 0; 0 where no chain leads.
pub fn distances(mask: &Mask) -> Box<[[u16; 3]; MASK]> {
    let mut distances = Box::new([[0; 3]; MASK]);
    distances[0][0] = 1;
    let mut rim = vec![(0, 0)];
    let mut distance = 1;
    while !rim.is_empty() {
        distance += 1;
        let mut wider = Vec::new();
        for pair in rim.iter().flat_map(|&pair| successors(mask, pair)) {
            let found = &mut distances[pair.0 as usize][pair.1 as usize];
            if *found == 0 {
                *found = distance;
                wider.push(pair);
            }
        }
        rim = wider;
    }
    distances
}

/// A shortest way to the pair that `check` names: its pairs.
pub fn way(mask: &[u8]) -> Result<u16, Refusal> {
    let named = check(mask, &mut [0; MASK])?.ok_or(10)?;
    let mask: &Mask = mask.try_into().map_err(|_| 1)?;
    Ok(distances(mask)[named.address as usize][named.level as usize])
}

/// The same for a list of `room` bytes.
pub fn listed(way: Result<u16, Refusal>, room: usize) -> Result<u16, Refusal> {
    match way {
        Ok(count) if room < 3 * count as usize => Err(11),
        _ => way,
    }
}

/// How long an edge is held at a pair.
#[derive(Clone, Copy, PartialEq, Eq, Debug)]
pub enum Bound {
    NotReached,
    NoBound,
    Cycles(u32),
}

/// The bounds of a mask, by address and level.
pub type Bounds = [[Bound; 3]; MASK];

/// A marked pair above main, and what follows it in its level.
struct Held {
    pair: Pair,
    cycles: u32,
    /// Places in the list of these; a return has none.
    next: Vec<usize>,
    halts: bool,
}

impl Held {
    /// The cycles of a chain of this pair alone that ends with a return.
    fn returns(&self) -> u32 {
        if self.next.is_empty() {
            self.cycles
        } else {
            0
        }
    }

    /// The same two for one pair more, from those for the pairs that follow.
    fn longer(&self, goes_on: &[bool], total: &[u32]) -> (bool, u32) {
        let on = self.halts || self.next.iter().any(|&to| goes_on[to]);
        match self.next.iter().map(|&to| total[to]).max() {
            None | Some(0) => (on, 0),
            Some(best) => (on, best + self.cycles),
        }
    }
}

fn held_pairs(mask: &Mask, marks: &[u8; MASK]) -> Vec<Held> {
    let mut places = vec![[0; 3]; MASK];
    let mut pairs = Vec::new();
    for address in 0..MASK {
        for level in [1, 2] {
            if marks[address] >> level & 1 == 1 {
                places[address][level] = pairs.len();
                pairs.push((address as u16, level as u8));
            }
        }
    }
    let held = |&pair: &Pair| {
        let (address, level) = pair;
        let code = decode(byte(mask, address), byte(mask, address + 1)).expect("a passed mask");
        let moved = (address + code.length as u16) & 0xFFF;
        let next = match code.form {
            form::RET | form::RETI => vec![],
            form::JMP => vec![code.b],
            form::BRANCH => vec![moved, moved & 0x800 | code.b],
            _ => vec![moved], // EI too: its vectors are not followed
        };
        let place = |to: u16| places[to as usize][level as usize];
        Held {
            pair,
            cycles: code.cycles as u32,
            next: next.into_iter().map(place).collect(),
            halts: code.form == form::HALT,
        }
    };
    pairs.iter().map(held).collect()
}

/// The bounds of every pair, by the number of pairs in a chain: from each the
/// most cycles of a chain of one pair to a return, of two, of three, as long as
/// the pairs that have chains of so many grow fewer. Those that are left have
/// chains of any number: they reach a loop, or a HALT, which counts as one.
pub fn bounds(mask: &[u8]) -> Result<Box<Bounds>, Refusal> {
    let mut marks = [0; MASK];
    if check(mask, &mut marks)?.is_some() {
        return Err(15);
    }
    let held = held_pairs(mask.try_into().map_err(|_| 1)?, &marks);
    // Whether a pair has a chain of so many pairs, the most cycles of those that
    // end with a return, 0 for none, and the most of any number so far.
    let mut goes_on = vec![true; held.len()];
    let mut total: Vec<u32> = held.iter().map(Held::returns).collect();
    let mut most = total.clone();
    let mut left: Vec<usize> = (0..held.len()).collect();
    loop {
        let longer: Vec<(bool, u32)> = left
            .iter()
            .map(|&at| held[at].longer(&goes_on, &total))
            .collect();
        for (&at, (on, cycles)) in left.iter().zip(longer) {
            goes_on[at] = on;
            total[at] = cycles;
            most[at] = most[at].max(cycles);
        }
        let before = left.len();
        left.retain(|&at| goes_on[at]);
        if left.len() == before {
            break;
        }
    }
    let mut bounds = Box::new([[Bound::NotReached; 3]; MASK]);
    for (at, Held { pair, .. }) in held.iter().enumerate() {
        bounds[pair.0 as usize][pair.1 as usize] = if goes_on[at] {
            Bound::NoBound
        } else {
            Bound::Cycles(most[at])
        };
    }
    Ok(bounds)
}

/// The bound of one pair.
pub fn bound(mask: &[u8], address: u16, level: u8) -> Result<Bound, Refusal> {
    if mask.len() != MASK {
        return Err(1);
    }
    if address > 0xFFF || level > 2 {
        return Err(5);
    }
    Ok(bounds(mask)?[address as usize][level as usize])
}

#[cfg(test)]
mod tests {
    use super::*;

    const OPTIONS: Options = Options {
        rate: 2,
        commons: 4,
        wake_pm: 0,
        wake_ps: 0,
        wake_pp: 0,
    };

    fn machine() -> Machine {
        let mut machine = Machine::zeroed();
        machine.power_on(OPTIONS, &[0; IMAGE]).unwrap();
        machine
    }

    fn mask_at(at: usize, code: &[u8]) -> Mask {
        let mut mask = [0x3E; MASK];
        for (i, byte) in code.iter().enumerate() {
            mask[(at + i) % MASK] = *byte;
        }
        mask
    }

    /// One step of `code` at the machine's PC.
    fn step(mut machine: Machine, code: &[u8]) -> Machine {
        let mask = mask_at(machine.pc as usize, code);
        machine.apply(RUN, 1, 0, 0, 0, &mask).unwrap();
        machine
    }

    #[test]
    fn sums() {
        let m = step(
            Machine {
                acc: 9,
                ..machine()
            },
            &[0x40, 8],
        );
        assert_eq!((m.acc, m.cf), (1, 1));
        let mut m = Machine {
            acc: 15,
            cf: 1,
            ..machine()
        };
        m.memory[0] = 15;
        let m = step(m, &[0x08]);
        assert_eq!((m.acc, m.cf), (15, 1));
        let m = step(
            Machine {
                acc: 4,
                cf: 1,
                ..machine()
            },
            &[0x36],
        );
        assert_eq!((m.acc, m.cf), (10, 1));
        let m = step(
            Machine {
                acc: 9,
                ..machine()
            },
            &[0x36],
        );
        assert_eq!((m.acc, m.cf), (9, 0));
        let m = step(machine(), &[0x3F]);
        assert_eq!(m.acc, 15);
    }

    #[test]
    fn borrow_is_carry_0() {
        let m = step(
            Machine {
                acc: 3,
                ..machine()
            },
            &[0x41, 3],
        );
        assert_eq!((m.acc, m.cf), (0, 1));
        let m = step(
            Machine {
                acc: 3,
                ..machine()
            },
            &[0x41, 4],
        );
        assert_eq!((m.acc, m.cf), (15, 0));
    }

    #[test]
    fn memory_that_is_not_there() {
        let m = Machine {
            acc: 5,
            r: [0, 8, 0, 0, 0],
            ..machine()
        };
        let stored = step(m, &[0x05]);
        assert_eq!(stored.memory, m.memory);
        assert_eq!(step(stored, &[0x3E, 0x04]).acc, 5);
        assert_eq!(step(m, &[0x04]).acc, 0);
    }

    /// Both pairs at these addresses.
    fn pairs_at(r1r0: u8, r3r2: u8) -> Machine {
        Machine {
            r: [r1r0 & 15, r1r0 >> 4, r3r2 & 15, r3r2 >> 4, 0],
            strays: 7,
            ..machine()
        }
    }

    #[test]
    fn every_access_to_the_gap_counts() {
        for op in 0..=255 {
            // By the data sheet's summary: through R1R0, through R3R2.
            let (r1r0, r3r2) = match op {
                0x04 | 0x05 | 0x08..=0x0B | 0x1A..=0x1C | 0x4C..=0x4F => (1, 0),
                0x0C | 0x0D | 0x1D..=0x1F => (2, 0),
                0x06 | 0x07 => (0, 1),
                0x0E | 0x0F => (0, 2),
                _ => (0, 0),
            };
            for (address, inside) in [(0x7F, 0), (0x80, 1), (0xDF, 1), (0xE0, 0), (0xFF, 0)] {
                let m = step(pairs_at(address, 0), &[op, 0]);
                assert_eq!(m.strays, 7 + r1r0 * inside, "{op:02X} at {address:02X}");
                let m = step(pairs_at(0, address), &[op, 0]);
                assert_eq!(m.strays, 7 + r3r2 * inside, "{op:02X} at {address:02X}");
            }
        }
    }

    #[test]
    fn what_does_not_run_does_not_count() {
        let inc = [0x0C; MASK];
        let m = pairs_at(0x80, 0xDF);
        for (level, code) in [
            (0, [0x35, 0]),
            (0, [0x40, 0x10]),
            (0, [0x2E, 0]),
            (0, [0x2F, 0]),
            (1, [0xF0, 0]),
            (2, [0xF0, 0]),
        ] {
            let mut m = step(Machine { level, ..m }, &code);
            assert_ne!(m.fault, 0);
            m.apply(RUN, 9, 0, 0, 0, &inc).unwrap();
            assert_eq!(m.strays, 7);
        }
        let mut m = Machine {
            enabled: 1,
            held: 1,
            ..m
        };
        m.apply(RUN, 1, 0, 0, 0, &inc).unwrap(); // takes the edge
        assert_eq!((m.level, m.strays), (2, 7));
        assert_eq!(m.apply(RUN, 1, 0, 0, 0, &inc[1..]), Err(1));
        m.pc = 4096;
        assert_eq!(m.apply(RUN, 1, 0, 0, 0, &inc), Err(5));
        assert_eq!((m.strays, m.gap_count()), (7, Err(5)));
    }

    #[test]
    fn the_count_stops_and_only_power_on_clears_it() {
        let mut m = pairs_at(0x80, 0);
        m.apply(RUN, 40_000, 0, 0, 0, &[0x0C; MASK]).unwrap();
        assert_eq!((m.strays, m.gap_count()), (80_007, Ok(65535)));
        let other = Machine { strays: 65535, ..m };
        assert_eq!(m.recorded(), other);
        for (kind, count) in [(PINS, 0), (INT, 0), (TMCLK, 9), (RES, 0)] {
            m.apply(kind, count, 0, 0, 0, &[]).unwrap();
            assert_eq!(m.gap_count(), Ok(65535));
        }
        assert_eq!(m.power_on(OPTIONS, &[16; IMAGE]), Err(3));
        assert_eq!(m.gap_count(), Ok(65535));
        m.power_on(OPTIONS, &[0; IMAGE]).unwrap();
        assert_eq!(m.gap_count(), Ok(0));
    }

    #[test]
    fn branches_keep_bit_11_of_the_moved_pc() {
        assert_eq!(
            step(
                Machine {
                    pc: 0x7FE,
                    ..machine()
                },
                &[0xB0, 0x10]
            )
            .pc,
            0x810
        );
        assert_eq!(
            step(
                Machine {
                    pc: 0x7FD,
                    ..machine()
                },
                &[0xB0, 0x10]
            )
            .pc,
            0x010
        );
    }

    #[test]
    fn read_takes_the_moved_page() {
        let mut mask = mask_at(0x1FF, &[0x4C]);
        mask[0x200] = 0xA5;
        let mut m = Machine {
            pc: 0x1FF,
            ..machine()
        };
        m.apply(RUN, 1, 0, 0, 0, &mask).unwrap();
        assert_eq!((m.r[4], m.acc, m.cycles), (10, 5, 2));
    }

    #[test]
    fn timer_passes_255() {
        let mut m = Machine {
            timer: 254,
            running: 1,
            ..machine()
        };
        m.apply(RUN, 2, 0, 0, 0, &[0x3E; MASK]).unwrap();
        assert_eq!((m.timer, m.tf), (0, 1));
    }

    #[test]
    fn pulses_asleep_move_the_timer_and_wake_nothing() {
        let asleep = Machine {
            options: Options {
                rate: EXTERNAL,
                ..OPTIONS
            },
            timer: 200,
            running: 1,
            halted: 1,
            enabled: 1,
            pc: 0x22,
            ..machine()
        };
        for (edges, timer, tf) in [(0, 200, 0), (55, 255, 0), (56, 0, 1), (65535, 199, 1)] {
            let mut m = asleep;
            m.apply(TMCLK, edges, 0, 0, 0, &[]).unwrap();
            assert_eq!(
                m,
                Machine {
                    timer,
                    tf,
                    ..asleep
                }
            );
        }
        let mut m = asleep;
        m.apply(TMCLK, 56, 0, 0, 0, &[]).unwrap();
        m.apply(TMCLK, 3, 0, 0, 0, &[]).unwrap();
        assert_eq!((m.timer, m.tf, m.halted, m.held), (3, 1, 1, 0));
        m.apply(INT, 0, 0, 0, 0, &[]).unwrap();
        m.apply(RUN, 1, 0, 0, 0, &mask_at(8, &[0x2F])).unwrap();
        assert_eq!((m.pc, m.level, m.tf), (8, 2, 1));
        m.apply(RUN, 2, 0, 0, 0, &mask_at(8, &[0x2F])).unwrap();
        assert_eq!((m.pc, m.level, m.tf), (4, 2, 0));
    }

    #[test]
    fn held_edge_goes_first() {
        let m = step(
            Machine {
                enabled: 1,
                held: 1,
                tf: 1,
                pc: 0x123,
                cf: 1,
                ..machine()
            },
            &[],
        );
        assert_eq!((m.pc, m.held, m.tf, m.level, m.cycles), (8, 0, 1, 2, 2));
        assert_eq!((m.stack, m.stack_cf), (0x123, 1));
    }

    #[test]
    fn jtmr_clears_tf_and_call_keeps_the_stack_carry() {
        let m = step(Machine { tf: 1, ..machine() }, &[0xD0, 0x55]);
        assert_eq!((m.pc, m.tf), (0x55, 0));
        let m = step(Machine { cf: 1, ..machine() }, &[0xF1, 0x23]);
        assert_eq!((m.pc, m.stack, m.stack_cf, m.level), (0x123, 2, 0, 1));
    }

    #[test]
    fn faults_leave_the_rest() {
        let before = machine();
        for (code, fault) in [
            (&[0x35][..], 1),
            (&[0x40, 0x15], 1),
            (&[0x2E], 3),
            (&[0x2F], 3),
        ] {
            assert_eq!(step(before, code), Machine { fault, ..before });
        }
        let before = Machine { level: 1, ..before };
        assert_eq!(step(before, &[0xF0, 0x00]), Machine { fault: 2, ..before });
    }

    #[test]
    fn marks() {
        let mut marks = [0; MASK];
        assert_eq!(check(&[0x3E; MASK], &mut marks), Ok(None));
        assert!(marks.iter().all(|&mark| mark == 1));
        let failure = check(&mask_at(0, &[0x40, 0x15]), &mut marks)
            .unwrap()
            .unwrap();
        assert_eq!(
            failure,
            Failure {
                fault: 1,
                address: 0,
                level: 0
            }
        );
        let failure = check(&mask_at(0, &[0xF0, 0x10]), &mut marks)
            .unwrap()
            .unwrap();
        assert_eq!(
            failure,
            Failure {
                fault: 2,
                address: 0,
                level: 1
            }
        );
        check(&mask_at(0, &[0xE1, 0x00]), &mut marks).unwrap();
        assert_eq!((marks[4], marks[8]), (0, 0));
    }

    #[test]
    fn successors_of_a_pair() {
        let next = |at: usize, code: &[u8], level| {
            successors(&mask_at(at, code), (at as u16, level)).collect::<Vec<_>>()
        };
        assert_eq!(next(0xFFF, &[0x3E], 1), [(0, 1)]);
        assert_eq!(next(0x7FD, &[0xB0, 0x10], 2), [(0x7FF, 2), (0x10, 2)]);
        assert_eq!(next(0x7FE, &[0xB0, 0x10], 2), [(0x800, 2), (0x810, 2)]);
        assert_eq!(next(5, &[0xE1, 0x23], 1), [(0x123, 1)]);
        assert_eq!(next(5, &[0xF1, 0x23], 0), [(0x123, 1), (7, 0)]);
        assert_eq!(next(5, &[0x2C], 0), [(6, 0), (4, 2), (8, 2)]);
        assert_eq!(next(5, &[0x2C], 1), [(6, 1), (4, 2), (8, 2)]);
        let none: [(&[u8], u8); 7] = [
            (&[0xF1, 0x23], 1),
            (&[0xF1, 0x23], 2),
            (&[0x2E], 0),
            (&[0x2F], 0),
            (&[0x2E], 1),
            (&[0x2F], 2),
            (&[0x35], 0),
        ];
        for (code, level) in none {
            assert_eq!(next(5, code, level), [], "{code:X?} in level {level}");
        }
    }

    #[test]
    fn ways() {
        let nops = [0x3E; MASK];
        assert_eq!(listed(way(&nops[1..]), 0), Err(1));
        assert_eq!(listed(way(&nops), 0), Err(10));
        let fails = mask_at(3, &[0x35]);
        assert_eq!(listed(way(&fails), 11), Err(11));
        assert_eq!(listed(way(&fails), 12), Ok(4));
        assert_eq!(way(&mask_at(0, &[0x35])), Ok(1));
        // CALL 010h, then NOPs up to the CALL at 0, in level 1
        assert_eq!(way(&mask_at(0, &[0xF0, 0x10])), Ok(4096 - 0x10 + 2));
    }

    /// A mask with EI and CALL 010h in main at 080h, RETI at both vectors, and `code` at 010h.
    fn called(code: &[u8]) -> Mask {
        let mut mask = mask_at(0x10, code);
        mask[..2].copy_from_slice(&[0xE0, 0x80]);
        mask[4] = 0x2F;
        mask[8] = 0x2F;
        mask[0x80..0x85].copy_from_slice(&[0x2C, 0xF0, 0x10, 0xE0, 0x81]);
        mask
    }

    #[test]
    fn bounds_of_routines() {
        use Bound::*;
        let codes: [(&[u8], Bound); 10] = [
            (&[0x2E], Cycles(1)),
            (&[0x2F], Cycles(1)),
            (&[0x3E, 0x4C, 0x40, 0x01, 0x2E], Cycles(6)),
            // JC over two READs to three NOPs
            (
                &[0xC0, 0x15, 0x4C, 0x4C, 0x2E, 0x3E, 0x3E, 0x3E, 0x2E],
                Cycles(7),
            ),
            (&[0xC0, 0x13, 0x2E, 0x4C, 0x2E], Cycles(5)),
            (&[0x2C, 0x2E], Cycles(2)), // EI
            (&[0xE0, 0x10], NoBound),
            (&[0xC0, 0x10, 0x2E], NoBound),
            (&[0xC0, 0x13, 0x2E, 0x37, 0x3E, 0x2E], NoBound),
            (&[0xC0, 0x16, 0x3E, 0x3E, 0xE0, 0x12, 0x2E], NoBound),
        ];
        for (code, expected) in codes {
            let mask = called(code);
            assert_eq!(bound(&mask, 0x10, 1), Ok(expected), "{code:X?}");
            assert_eq!(bound(&mask, 0x10, 0), Ok(NotReached));
            assert_eq!(bound(&mask, 0x80, 0), Ok(NotReached));
            assert_eq!(bound(&mask, 0x10, 2), Ok(NotReached));
            assert_eq!(bound(&mask, 8, 2), Ok(Cycles(1)));
            assert_eq!(bound(&mask, 0xFFF, 1), Ok(NotReached));
        }
        // EI at 007h goes on to the vector after it; a branch with bit 11
        let mut mask = called(&[0x2E]);
        mask[4..10].copy_from_slice(&[0x3E, 0x3E, 0x3E, 0x2C, 0x4C, 0x2F]);
        assert_eq!(bound(&mask, 4, 2), Ok(Cycles(7)));
        mask[4..6].copy_from_slice(&[0xE7, 0xFE]);
        mask[0x7FE..0x801].copy_from_slice(&[0xC0, 0x90, 0x2F]);
        mask[0x890..0x893].copy_from_slice(&[0x4C, 0x4C, 0x2F]);
        assert_eq!(bound(&mask, 4, 2), Ok(Cycles(9)));
    }

    #[test]
    fn bounds_refused() {
        let (passes, fails) = (called(&[0x2E]), called(&[0x35]));
        for (address, level) in [(0, 0), (0x10, 1), (0xFFF, 2)] {
            assert_eq!(bound(&fails, address, level), Err(15));
            assert_eq!(bound(&fails[1..], address, level), Err(1));
        }
        for mask in [&passes, &fails] {
            for (address, level) in [(4096, 0), (65535, 2), (0, 3), (8, 255), (4096, 3)] {
                assert_eq!(bound(mask, address, level), Err(5));
                assert_eq!(bound(&mask[1..], address, level), Err(1));
            }
        }
    }

    #[test]
    fn panel_example() {
        let mask = mask_at(0, &[0x75, 0x30]);
        let script = [6, 0, 1, 0, 2, 4, 0, 0, 0, 0, 2, 0, 2, 0, 2, 0];
        let mut out = [0; 96];
        assert_eq!(run_script(&mask, &script, &mut out), Ok(2));
        let hex = |bytes: &[u8]| bytes.iter().map(|b| format!("{b:02X}")).collect::<String>();
        assert_eq!(
            hex(&out[..48]),
            format!("2C0010000000000000000000000F1000{:064}", 0)
        );
        assert_eq!(
            hex(&out[48..]),
            format!("2C001000020002000000000000051000{:064}", 0)
        );
    }

    #[test]
    fn refusals() {
        let mut m = machine();
        let mask = [0x3E; MASK];
        assert_eq!(m.apply(RUN, 1, 0, 0, 0, &mask[1..]), Err(1));
        assert_eq!(m.power_on(OPTIONS, &[16; 165]), Err(2));
        assert_eq!(m.apply(PINS, 0, 16, 0, 0, &[]), Err(3));
        assert_eq!(
            m.power_on(Options { rate: 6, ..OPTIONS }, &[0; IMAGE]),
            Err(4)
        );
        assert_eq!(m, machine());
        m.pc = 4096;
        assert_eq!(m.apply(RES, 0, 0, 0, 0, &[]), Err(5));
        let refused = |script: &[u8], room| check_script(&mask, script, room).unwrap_err();
        let at = |refusal, offset| ScriptRefusal { refusal, offset };
        assert_eq!(refused(&[5, 0, 6], 48), at(6, 0));
        assert_eq!(refused(&[0, 0, 9, 0], 48), at(7, 0));
        assert_eq!(refused(&[], 48), at(8, 0));
        let power = [6, 0, 1, 0, 2, 4, 0, 0, 0, 0];
        assert_eq!(refused(&power, 47), at(9, 0));
        let two = |tail: &[u8]| [&power[..], tail].concat();
        assert_eq!(refused(&two(&[1, 0, 4, 0, 2]), 96), at(3, 10));
        assert_eq!(
            refused(&two(&[6, 0, 1, 0, 6, 4, 0, 0, 0, 0]), 96),
            at(4, 10)
        );
        assert_eq!(refused(&two(&[1, 0, 9, 0, 2]), 96), at(7, 10));
        assert_eq!(refused(&two(&[2, 0, 9, 0, 2]), 96), at(6, 10));
    }

    #[test]
    fn what_is_written_reads_back() {
        for first in 0..=255 {
            for second in 0..=255 {
                if let Some(i) = decode(first, second) {
                    let (length, one, two) = encode(i.form, i.a, i.b).unwrap();
                    assert_eq!((length, one), (i.length, first));
                    assert!(length == 1 || two == second);
                }
            }
        }
    }
}
