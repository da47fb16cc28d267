//! The record: the same bytes for C, for Rust and for the library.

use ht1130::{ffi, Machine, IMAGE, MASK, REPORT};
use std::mem::{align_of, offset_of, size_of};
use std::path::Path;
use std::process::Command;

const BLANK: Machine = Machine::zeroed();

fn size_of_field<T>(_: &T) -> usize {
    size_of::<T>()
}

/// Name, offset and size in Rust.
macro_rules! fields {
    ($($group:ident: $($field:ident)*;)*) => {
        [$($((
            concat!(stringify!($group), ".", stringify!($field)),
            offset_of!(Machine, cpu.$group.$field),
            size_of_field(&BLANK.cpu.$group.$field),
        )),*),*]
    };
}

fn rust_fields() -> Vec<(&'static str, usize, usize)> {
    let mut fields = fields! {
        registers: acc r0 r1 r2 r3 r4;
        control: pc cf tf;
        timer: count running;
        interrupts: enabled held level;
        stack: address carry;
        status: halted fault;
        outputs: pa channel mode;
        pins: pm ps pp intr;
        options: rate commons pm ps pp;
    }
    .to_vec();
    fields.push(("cycles", offset_of!(Machine, cpu.cycles), 4));
    fields.push(("memory", offset_of!(Machine, memory), 160));
    fields.push(("gap", offset_of!(Machine, gap), size_of_field(&BLANK.gap)));
    fields
}

/// The lines that a C program prints.
fn run_c(name: &str, body: &str) -> String {
    let directory = Path::new(env!("CARGO_TARGET_TMPDIR"));
    let source = directory.join(format!("{name}.c"));
    let program = directory.join(name);
    std::fs::write(&source, body).unwrap();
    let compiler = std::env::var_os("CC").unwrap_or("cc".into());
    let status = Command::new(compiler)
        .args(["-std=c11", "-Wall", "-Wextra", "-Werror", "-I"])
        .arg(concat!(env!("CARGO_MANIFEST_DIR"), "/../../include"))
        .arg("-o")
        .args([&program, &source])
        .status()
        .unwrap();
    assert!(status.success(), "the C compiler refused {name}.c");
    let output = Command::new(program).output().unwrap();
    assert!(output.status.success());
    String::from_utf8(output.stdout).unwrap()
}

#[test]
fn c_and_rust_agree() {
    let mut body = String::from(
        "#include <stdalign.h>\n#include <stdio.h>\n#include \"ht1130_tools.h\"\n\
         #define M ht1130_machine\n\
         int main(void) {\n    printf(\"size %zu\\nalign %zu\\n\", sizeof(M), alignof(M));\n",
    );
    let mut expected = format!(
        "size {}\nalign {}\n",
        size_of::<Machine>(),
        align_of::<Machine>()
    );
    for (name, offset, size) in rust_fields() {
        body += &format!(
            "    printf(\"{name} %zu %zu\\n\", offsetof(M, {name}), sizeof ((M *)0)->{name});\n"
        );
        expected += &format!("{name} {offset} {size}\n");
    }
    body += "    return 0;\n}\n";
    assert_eq!(run_c("layout", &body), expected);
    assert_eq!((size_of::<Machine>(), align_of::<Machine>()), (204, 4));
    assert_eq!(rust_fields().last(), Some(&("gap", 200, 2)));
}

#[test]
fn c_and_rust_number_alike() {
    let mut body =
        String::from("#include <stdio.h>\n#include \"ht1130_tools.h\"\nint main(void) {\n");
    let mut expected = String::new();
    let kinds = [
        ("RUN", ht1130::RUN),
        ("PINS", ht1130::PINS),
        ("INT", ht1130::INT),
        ("TMCLK", ht1130::TMCLK),
        ("RES", ht1130::RES),
    ];
    let sizes = [
        ("MASK", MASK),
        ("IMAGE", IMAGE),
        ("REPORT", REPORT),
        ("SCRIPT", ht1130::SCRIPT),
        ("WAY", ht1130::WAY),
        ("TEXT", ht1130::TEXT),
        ("PICTURE", ht1130::PICTURE),
    ];
    let numbers = kinds
        .into_iter()
        .map(|(name, n)| (name, n as usize))
        .chain(sizes)
        .chain(
            ht1130::form::NAMES
                .iter()
                .enumerate()
                .map(|(n, name)| (*name, n)),
        )
        .chain(
            ht1130::branch::NAMES
                .iter()
                .enumerate()
                .map(|(n, name)| (*name, n)),
        );
    for (name, number) in numbers {
        body += &format!("    printf(\"{name} %d\\n\", HT1130_{name});\n");
        expected += &format!("{name} {number}\n");
    }
    body += "    return 0;\n}\n";
    assert_eq!(run_c("numbers", &body), expected);
    assert_eq!((ht1130::form::HALT, ht1130::branch::JNZ_R4), (59, 11));
}

/// A record as bytes, so that Rust's layout has no part in what follows.
#[repr(C, align(4))]
#[derive(Clone, Copy)]
struct Record([u8; SIZE]);

/// The bytes of a record, by the header.
const SIZE: usize = 204;

/// The offsets that the header prints.
mod at {
    pub const ACC: usize = 0;
    pub const R: [usize; 5] = [1, 2, 3, 4, 5];
    pub const PC: usize = 6;
    pub const CF: usize = 8;
    pub const TF: usize = 9;
    pub const COUNT: usize = 10;
    pub const RUNNING: usize = 11;
    pub const ENABLED: usize = 12;
    pub const HELD: usize = 13;
    pub const LEVEL: usize = 14;
    pub const STACK: usize = 16;
    pub const STACK_CARRY: usize = 18;
    pub const HALTED: usize = 20;
    pub const FAULT: usize = 21;
    pub const PA: usize = 22;
    pub const CHANNEL: usize = 23;
    pub const MODE: usize = 24;
    pub const PM: usize = 25;
    pub const PS: usize = 26;
    pub const PP: usize = 27;
    pub const INTR: usize = 28;
    pub const RATE: usize = 29;
    pub const COMMONS: usize = 30;
    pub const WAKE: [usize; 3] = [31, 32, 33];
    pub const CYCLES: usize = 36;
    pub const MEMORY: usize = 40;
    pub const GAP: usize = 200;
    pub const PADDING: [usize; 6] = [15, 19, 34, 35, 202, 203];
}

impl Record {
    /// A record full of rubbish, powered on with values that can be told apart.
    fn powered(rate: u8) -> Record {
        Record([0xA5; SIZE]).powered_again(rate)
    }

    fn powered_again(mut self, rate: u8) -> Record {
        let image = image();
        // SAFETY: the record has the header's size and alignment, the image its length.
        let refusal = unsafe {
            ffi::ht1130_power_on(
                self.0.as_mut_ptr().cast(),
                rate,
                3,
                1,
                2,
                4,
                image.as_ptr(),
                image.len(),
            )
        };
        assert_eq!(refusal, 0);
        self
    }

    fn apply(&mut self, kind: u16, count: u16, [a, b, c]: [u8; 3], mask: &[u8]) {
        // SAFETY: as above, and the mask is a slice.
        let refusal = unsafe {
            ffi::ht1130_apply(
                self.0.as_mut_ptr().cast(),
                kind,
                count,
                a,
                b,
                c,
                mask.as_ptr(),
                mask.len(),
            )
        };
        assert_eq!(refusal, 0);
    }

    /// One step of this code at the record's PC.
    fn step(&mut self, code: &[u8]) {
        let mut mask = [0x3E; MASK];
        let pc = u16::from_le_bytes([self.0[at::PC], self.0[at::PC + 1]]) as usize;
        mask[pc..pc + code.len()].copy_from_slice(code);
        self.apply(ht1130::RUN, 1, [0; 3], &mask);
    }

    fn put(&mut self, offset: usize, bytes: &[u8]) {
        self.0[offset..offset + bytes.len()].copy_from_slice(bytes);
    }

    fn pc(&mut self, pc: u16) {
        self.put(at::PC, &pc.to_le_bytes());
    }

    fn cycles(&mut self, cycles: u32) {
        self.put(at::CYCLES, &cycles.to_le_bytes());
    }
}

/// ACC 1, R0-R4 2 to 6, then memory.
fn image() -> [u8; IMAGE] {
    std::array::from_fn(|i| if i < 6 { i as u8 + 1 } else { memory(i - 6) })
}

fn memory(i: usize) -> u8 {
    ((i * 7 + i / 16) & 15) as u8
}

#[track_caller]
fn same(found: &Record, expected: &Record) {
    for offset in (0..SIZE).filter(|offset| !at::PADDING.contains(offset)) {
        assert_eq!(found.0[offset], expected.0[offset], "byte {offset}");
    }
}

/// What `Record::powered` has to be.
fn expected(rate: u8) -> Record {
    let mut record = Record([0; SIZE]);
    record.put(at::ACC, &[1]);
    for (n, offset) in at::R.into_iter().enumerate() {
        record.put(offset, &[n as u8 + 2]);
    }
    record.put(at::PA, &[15]);
    record.put(at::CHANNEL, &[16]);
    for port in [at::PM, at::PS, at::PP] {
        record.put(port, &[15]);
    }
    record.put(at::INTR, &[1]);
    record.put(at::RATE, &[rate]);
    record.put(at::COMMONS, &[3]);
    for (port, offset) in at::WAKE.into_iter().enumerate() {
        record.put(offset, &[1 << port]);
    }
    for i in 0..160 {
        record.put(at::MEMORY + i, &[memory(i)]);
    }
    record
}

#[test]
fn power_on_lands_where_the_header_says() {
    for rate in [9, 255] {
        same(&Record::powered(rate), &expected(rate));
    }
}

/// Each instruction changes the bytes that the header gives its field, and no others.
#[test]
fn steps_land_where_the_header_says() {
    let mut found = Record::powered(9);
    let mut expected = expected(9);
    let mut pc = 0;
    let mut cycles = 0;
    let mut step = |code: &[u8], spent: u32, changes: &[(usize, u8)]| {
        found.step(code);
        pc += code.len() as u16;
        cycles += spent;
        for (offset, value) in changes {
            expected.put(*offset, &[*value]);
        }
        expected.pc(pc);
        expected.cycles(cycles);
        same(&found, &expected);
    };
    step(&[0x7B], 1, &[(at::ACC, 11)]); // MOV A,11
    step(&[0x20], 1, &[(at::R[0], 11)]); // MOV R0,A
    step(&[0x77], 1, &[(at::ACC, 7)]); // MOV A,7
    step(&[0x22], 1, &[(at::R[1], 7)]); // MOV R1,A
    step(&[0x05], 1, &[(at::MEMORY + 0x7B, 7)]); // MOV [R1R0],A
    step(&[0x6A, 0x0E], 2, &[(at::R[2], 10), (at::R[3], 14)]); // MOV R3R2,EAh
    step(&[0x07], 1, &[(at::MEMORY + 0xEA - 0x60, 7)]); // MOV [R3R2],A
    step(&[0x68, 0x0B], 2, &[(at::R[2], 8), (at::R[3], 11)]); // MOV R3R2,B8h
    step(&[0x07], 1, &[(at::GAP, 1)]); // MOV [R3R2],A
    step(&[0x0E], 1, &[(at::GAP, 3)]); // INC [R3R2]
    step(&[0x46, 0x0C], 2, &[(at::R[4], 12)]); // MOV R4,12
    step(&[0x2B], 1, &[(at::CF, 1)]); // STC
    step(&[0x47, 0xD6], 2, &[(at::COUNT, 0xD6)]); // TIMER D6h
    step(&[0x38], 1, &[(at::RUNNING, 1)]); // TIMER ON
    step(&[0x39], 1, &[(at::RUNNING, 0)]); // TIMER OFF
    step(&[0x2C], 1, &[(at::ENABLED, 1)]); // EI
    step(&[0x30], 1, &[(at::PA, 7)]); // OUT PA,A
    step(&[0x45, 0x09], 2, &[(at::CHANNEL, 9)]); // SOUND 9
    step(&[0x49], 1, &[(at::MODE, 1)]); // SOUND LOOP
    step(&[0x37, 0x3E], 2, &[(at::HALTED, 1)]); // HALT
}

#[test]
fn events_land_where_the_header_says() {
    let mut found = Record::powered(255);
    let mut expected = expected(255);
    let mut check = |change: &dyn Fn(&mut Record), changes: &[(usize, &[u8])]| {
        change(&mut found);
        for (offset, bytes) in changes {
            expected.put(*offset, bytes);
        }
        same(&found, &expected);
    };
    check(
        &|r| r.apply(ht1130::PINS, 0, [3, 5, 9], &[]),
        &[(at::PM, &[3]), (at::PS, &[5]), (at::PP, &[9])],
    );
    check(
        &|r| r.apply(ht1130::INT, 0, [0; 3], &[]),
        &[(at::INTR, &[0]), (at::HELD, &[1])],
    );
    check(
        &|r| r.step(&[0x38]),
        &[(at::RUNNING, &[1]), (at::PC, &[1]), (at::CYCLES, &[1])],
    ); // TIMER ON
    check(
        &|r| r.apply(ht1130::TMCLK, 0x1A7, [0; 3], &[]),
        &[(at::COUNT, &[0xA7]), (at::TF, &[1])],
    );
    // CALL ABCh at 5FFh
    check(&|r| r.pc(0x5FF), &[(at::PC, &[0xFF, 0x05])]);
    check(
        &|r| r.step(&[0xFA, 0xBC]),
        &[
            (at::PC, &[0xBC, 0x0A]),
            (at::STACK, &[0x01, 0x06]),
            (at::LEVEL, &[1]),
            (at::CYCLES, &[3]),
        ],
    );
    check(
        &|r| r.step(&[0x2B]),
        &[(at::PC, &[0xBD]), (at::CF, &[1]), (at::CYCLES, &[4])],
    ); // STC
    check(
        &|r| r.step(&[0x2C]),
        &[(at::PC, &[0xBE]), (at::ENABLED, &[1]), (at::CYCLES, &[5])],
    ); // EI
       // RET
    check(
        &|r| r.step(&[0x2E]),
        &[
            (at::PC, &[0x01, 0x06]),
            (at::LEVEL, &[0]),
            (at::CYCLES, &[6]),
        ],
    );
    // The held edge is taken at last.
    check(
        &|r| r.step(&[]),
        &[
            (at::PC, &[0x08, 0x00]),
            (at::HELD, &[0]),
            (at::LEVEL, &[2]),
            (at::STACK_CARRY, &[1]),
            (at::CYCLES, &[8]),
        ],
    );
    check(&|r| r.step(&[0x35]), &[(at::FAULT, &[1])]); // no instruction
                                                       // RES
    check(
        &|r| r.apply(ht1130::RES, 0, [0; 3], &[]),
        &[
            (at::PC, &[0, 0, 0, 0]),
            (at::COUNT, &[0, 0]),
            (at::ENABLED, &[0, 0, 0]),
            (at::STACK, &[0, 0, 0]),
            (at::FAULT, &[0]),
        ],
    );
    check(
        &|r| r.cycles(0x00FF_FFFF),
        &[(at::CYCLES, &[0xFF, 0xFF, 0xFF, 0])],
    );
    check(
        &|r| r.step(&[0x3E]),
        &[(at::PC, &[1]), (at::CYCLES, &[0, 0, 0, 1])],
    ); // NOP
       // The count's high byte comes after its low byte.
    check(&|r| r.put(at::R[1], &[8]), &[(at::R[1], &[8])]);
    check(
        &|r| r.put(at::GAP, &[0xFE, 0x12]),
        &[(at::GAP, &[0xFE, 0x12])],
    );
    check(
        &|r| r.step(&[0x0C]),
        &[(at::PC, &[2]), (at::CYCLES, &[1]), (at::GAP, &[0x00, 0x13])],
    ); // INC [R1R0]
       // RES keeps it, power-on clears it.
    check(
        &|r| r.apply(ht1130::RES, 0, [0; 3], &[]),
        &[(at::PC, &[0, 0])],
    );
    check(
        &|r| *r = r.powered_again(255),
        &[(0, &self::expected(255).0[..at::GAP]), (at::GAP, &[0, 0])],
    );
}

/// The count is read where it is written, and answered in bytes 4 and 5.
#[test]
fn counts_come_from_where_the_header_says() {
    let mut record = expected(9);
    let count = |record: &Record| {
        // SAFETY: the record has the header's size and alignment.
        unsafe { ffi::ht1130_gap_count(record.0.as_ptr().cast()) }
    };
    for (bytes, answer) in [
        ([0, 0], 0),
        ([0x34, 0x12], 0x1234_0000_0000),
        ([0xFF, 0xFF], 0xFFFF_0000_0000),
    ] {
        record.put(at::GAP, &bytes);
        record.put(at::ACC, &[15]);
        assert_eq!(count(&record), answer);
        record.put(at::ACC, &[16]);
        assert_eq!(count(&record), 5);
    }
}

/// The glass shows E0h-E7h; its answer is taken apart by the header's macros.
#[test]
fn readings_come_from_where_the_header_says() {
    let mut record = expected(9);
    record.put(at::COMMONS, &[4]);
    record.put(at::MEMORY + 128, &[0, 4, 15, 11, 13, 6, 15, 3]); // -0.50
    let reading = |record: &Record| {
        // SAFETY: the record has the header's size and alignment.
        unsafe { ffi::ht1130_reading(record.0.as_ptr().cast()) }
    };
    let mut answers = vec![reading(&record)];
    record.put(at::MEMORY + 128 + 7, &[8]);
    answers.push(reading(&record));
    record.put(at::HALTED, &[1]);
    answers.push(reading(&record));
    record.put(at::ACC, &[16]);
    answers.push(reading(&record));
    let mut body =
        String::from("#include <stdio.h>\n#include \"ht1130_tools.h\"\nint main(void) {\n");
    for answer in answers {
        body += &format!(
            "    {{ uint64_t a = {answer}u; printf(\"%d %d %d %d %d\\n\", HT1130_REFUSAL(a), \
             HT1130_DIGIT(a), HT1130_DARK(a), HT1130_PLACES(a), HT1130_VALUE(a)); }}\n"
        );
    }
    body += "    return 0;\n}\n";
    let expected = "0 0 0 2 -50\n16 3 0 0 0\n0 0 1 0 0\n5 0 0 0 0\n";
    assert_eq!(run_c("readings", &body), expected);
}

/// The library reads where it writes.
#[test]
fn reports_come_from_where_the_header_says() {
    let mut record = expected(9);
    record.pc(0x9AB);
    record.cycles(0x1234_5678);
    for (offset, value) in [
        (at::LEVEL, 2),
        (at::FAULT, 3),
        (at::PA, 6),
        (at::CHANNEL, 14),
        (at::MODE, 1),
    ] {
        record.put(offset, &[value]);
    }
    let mut out = [0; REPORT];
    // SAFETY: the record has the header's size and alignment, the buffer its length.
    assert_eq!(
        unsafe { ffi::ht1130_report(record.0.as_ptr().cast(), out.as_mut_ptr(), out.len()) },
        0
    );
    assert_eq!(
        out[..16],
        [44, 0, 16, 0, 0xAB, 0x09, 0x78, 0x56, 0x34, 0x12, 2, 0, 3, 6, 14, 1]
    );
    for (s, nibble) in out[16..].iter().enumerate() {
        assert_eq!(*nibble, memory(128 + s) & 7, "segment {s}"); // 3 commons
    }
}

/// Narrow arguments are the callee's to cut: a caller may leave anything above them.
mod wide {
    extern "C" {
        pub fn ht1130_power_on(
            machine: *mut u8,
            rate: u64,
            commons: u64,
            wake_pm: u64,
            wake_ps: u64,
            wake_pp: u64,
            image: *const u8,
            image_len: usize,
        ) -> u8;
        pub fn ht1130_apply(
            machine: *mut u8,
            kind: u64,
            count: u64,
            a: u64,
            b: u64,
            c: u64,
            mask: *const u8,
            mask_len: usize,
        ) -> u8;
        pub fn ht1130_read(mask: *const u8, mask_len: usize, address: u64) -> u64;
        pub fn ht1130_write(form: u64, a: u64, b: u64) -> u64;
        pub fn ht1130_glass_draw(
            dark: u64,
            value: u64,
            places: u64,
            picture: *mut u8,
            len: usize,
        ) -> u64;
    }
}

#[test]
fn rubbish_above_narrow_arguments_does_not_matter() {
    let byte = |value: u8| 0xDEAD_BEEF_CAFE_A500 | value as u64;
    let word = |value: u16| 0xDEAD_BEEF_CAFE_0000 | value as u64;
    let image = image();
    let mut record = Record([0xA5; SIZE]);
    let machine = record.0.as_mut_ptr();
    let mask = [0x3E; MASK];
    // SAFETY: the record, image and mask have the header's sizes; the wider
    // arguments go in the same registers.
    unsafe {
        let (image, length) = (image.as_ptr(), image.len());
        let refusal = wide::ht1130_power_on(
            machine,
            byte(9),
            byte(3),
            byte(1),
            byte(2),
            byte(4),
            image,
            length,
        );
        assert_eq!(refusal, 0);
        let apply = |kind, count, a| {
            let (mask, length) = (mask.as_ptr(), mask.len());
            assert_eq!(
                wide::ht1130_apply(
                    machine,
                    word(kind),
                    word(count),
                    byte(a),
                    byte(5),
                    byte(9),
                    mask,
                    length
                ),
                0
            );
        };
        apply(ht1130::PINS, 0, 3);
        apply(ht1130::INT, 0, 0);
        apply(ht1130::RUN, 7, 0);
        assert_eq!(
            wide::ht1130_read(mask.as_ptr(), mask.len(), word(4095)),
            ffi::ht1130_read(mask.as_ptr(), mask.len(), 4095)
        );
        assert_eq!(
            wide::ht1130_write(byte(36), byte(11), word(2047)),
            ffi::ht1130_write(36, 11, 2047)
        );
        let mut picture = [0xA5; 8];
        let value = 0xDEAD_BEEF_0000_0000 | -50_i32 as u32 as u64;
        let (place, length) = (picture.as_mut_ptr(), picture.len());
        let drawn = wide::ht1130_glass_draw(byte(0), value, byte(2), place, length);
        assert_eq!((drawn, picture), (0, [0, 4, 15, 11, 13, 6, 15, 3])); // -0.50
    }
    let mut expected = expected(9);
    expected.put(at::PM, &[3, 5, 9, 0]);
    expected.put(at::HELD, &[1]);
    expected.pc(7);
    expected.cycles(7);
    same(&record, &expected);
}
