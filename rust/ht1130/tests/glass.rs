//! Readings of the glass, as a caller meets them.

use ht1130::{ffi, Event, GlassRefusal, Machine, Options, Reading, Refusal, IMAGE, MASK, PICTURE};
use std::error::Error;

/// The segments of 0 to 9.
const SHAPES: [&str; 10] = [
    "abcdef", "bc", "abdeg", "abcdg", "bcfg", "acdfg", "acdefg", "abc", "abcdefg", "abcdfg",
];

/// The two nibbles of a digit with these segments lit, `p` being the point.
fn lit(segments: &str) -> [u8; 2] {
    let bit = |segment| 1 << "abcdefgp".find(segment).unwrap();
    let code = segments.chars().fold(0u8, |code, s| code | bit(s));
    [code & 15, code >> 4]
}

/// A picture of four characters: digits, blanks, minuses, and `?` for a shape that
/// none has. A point lights that of the character before it.
fn picture(text: &str) -> [u8; PICTURE] {
    let mut digits: Vec<[u8; 2]> = Vec::new();
    for character in text.chars() {
        match character {
            '.' => digits.last_mut().unwrap()[1] |= 8,
            ' ' => digits.push(lit("")),
            '-' => digits.push(lit("g")),
            '?' => digits.push(lit("be")),
            _ => digits.push(lit(SHAPES[character.to_digit(10).unwrap() as usize])),
        }
    }
    digits.as_flattened().try_into().unwrap()
}

fn number(value: i32, places: u8) -> Reading {
    Reading::Number { value, places }
}

fn refused(refusal: Refusal, digit: u8) -> GlassRefusal {
    GlassRefusal { refusal, digit }
}

#[track_caller]
fn reads(text: &str, reading: Reading) {
    assert_eq!(ht1130::glass_read(&picture(text)), Ok(reading), "`{text}`");
}

#[track_caller]
fn unreadable(text: &str, digit: u8) {
    assert_eq!(
        ht1130::glass_read(&picture(text)),
        Err(refused(Refusal::Glass, digit)),
        "`{text}`"
    );
}

fn raw_read(picture: &[u8]) -> u64 {
    // SAFETY: the slice is valid for the call.
    unsafe { ffi::ht1130_glass_read(picture.as_ptr(), picture.len()) }
}

fn raw_draw(dark: u8, value: i32, places: u8, picture: &mut [u8]) -> u64 {
    // SAFETY: the slice is valid for the call.
    unsafe { ffi::ht1130_glass_draw(dark, value, places, picture.as_mut_ptr(), picture.len()) }
}

#[test]
fn nibbles_are_where_the_request_has_them() {
    assert_eq!(picture("-1.7 "), [0, 4, 6, 8, 7, 0, 0, 0]);
    assert_eq!(
        ht1130::glass_read(&[0, 0, 0, 4, 6, 8, 7, 0]),
        Ok(number(-17, 1))
    );
}

/// Every one of the 128 shapes at the right end: ten are digits, and one is blank.
/// Before a last digit one is a minus.
#[test]
fn shapes() {
    for code in 0..128u8 {
        let shape = [code & 15, code >> 4];
        let read = ht1130::glass_read(&[0, 0, 0, 0, 0, 0, shape[0], shape[1]]);
        let expected = match SHAPES.iter().position(|segments| lit(segments) == shape) {
            Some(numeral) => Ok(number(numeral as i32, 0)),
            None if code == 0 => Ok(Reading::Dark),
            None => Err(refused(Refusal::Glass, 3)),
        };
        assert_eq!(read, expected, "{shape:?}");

        let read = ht1130::glass_read(&[0, 0, 0, 0, shape[0], shape[1], 6, 0]);
        let expected = match expected {
            Ok(Reading::Number { value, .. }) => Ok(number(10 * value + 1, 0)),
            Ok(Reading::Dark) => Ok(number(1, 0)),
            Err(_) if shape == lit("g") => Ok(number(-1, 0)),
            Err(_) => Err(refused(Refusal::Glass, 2)),
        };
        assert_eq!(read, expected, "{shape:?}");
    }
    // Other panels draw 6, 7 and 9 so.
    for other in ["cdefg", "abcf", "abcfg"] {
        let [first, second] = lit(other);
        let read = ht1130::glass_read(&[first, second, 6, 0, 6, 0, 6, 0]);
        assert_eq!(read, Err(refused(Refusal::Glass, 0)), "{other}");
    }
}

#[test]
fn numbers_are_read() {
    reads("    ", Reading::Dark);
    for (text, value, places) in [
        ("   0", 0, 0),
        ("  90", 90, 0),
        (" 618", 618, 0),
        ("2345", 2345, 0),
        ("9999", 9999, 0),
        ("1.234", 1234, 3),
        ("12.34", 1234, 2),
        ("123.4", 1234, 1),
        (" 0.05", 5, 2),
        ("  0.0", 0, 1),
        // a point on the last digit has none after it
        ("12.", 12, 0),
        ("1234.", 1234, 0),
        ("   0.", 0, 0),
        // zeros may lead
        (" 007", 7, 0),
        (" 00.5", 5, 1),
        ("0000", 0, 0),
        ("0.000", 0, 3),
        // a minus directly before the first digit
        ("  -5", -5, 0),
        ("-999", -999, 0),
        (" -40", -40, 0),
        ("-0.50", -50, 2),
        ("-0.07", -7, 2),
        ("-12.3", -123, 1),
        ("-123.", -123, 0),
        // minus zero
        ("  -0", 0, 0),
        ("-0.00", 0, 2),
        (" -0.0", 0, 1),
        ("-000.", 0, 0),
    ] {
        let point = text.contains('.') as usize;
        let text = format!("{text:>width$}", width = 4 + point);
        reads(&text, number(value, places));
    }
}

#[test]
fn the_leftmost_digit_is_named() {
    for (text, digit) in [
        // unknown shapes
        ("?   ", 0),
        (" ?12", 1),
        ("12?4", 2),
        ("123?", 3),
        ("????", 0),
        // from the first digit on all places show digits
        ("1   ", 1),
        ("12  ", 2),
        ("123 ", 3),
        ("1 34", 1),
        (" 1 4", 2),
        // a minus has a digit right after it
        ("- 12", 1),
        ("-  5", 1),
        (" - 5", 2),
        ("  - ", 3),
        ("--12", 1),
        (" --5", 2),
        ("  --", 3),
        ("-?12", 1),
        ("-   ", 1),
        // and so is none at the right end
        ("   -", 3),
        // nor one after a digit
        ("1-23", 1),
        ("12-3", 2),
        ("123-", 3),
        (" 1-1", 2),
        // a point only on a digit
        (" .123", 0),
        ("  .12", 1),
        ("    .", 3),
        ("-.123", 0),
        ("  -.5", 2),
        ("1 .23", 1),
        ("12?.4", 2),
        // and one alone
        ("1.2.34", 1),
        ("1.23.4", 2),
        ("1.234.", 3),
        (" 1.2.3.", 2),
        ("-1.23.", 3),
        ("1.2.3.4.", 1),
    ] {
        unreadable(text, digit);
    }
}

/// The lowest number wins: 2, 3, 16.
#[test]
fn reads_refused() {
    for length in (0..20).filter(|&length| length != PICTURE) {
        for nibble in [0, 1, 16, 255] {
            let read = ht1130::glass_read(&vec![nibble; length]);
            assert_eq!(read, Err(refused(Refusal::BufferLength, 0)));
        }
    }
    for at in 0..PICTURE {
        for nibble in [16, 17, 128, 255] {
            for text in ["    ", "12.34", "?   ", "   -"] {
                let mut picture = picture(text);
                picture[at] = nibble;
                let read = ht1130::glass_read(&picture);
                assert_eq!(read, Err(refused(Refusal::Value, 0)), "{picture:?}");
            }
        }
    }
}

/// Byte 0 the refusal, 1 the digit, 2 dark, 3 the count, 4 to 7 the value.
#[test]
fn answers_are_packed() {
    for (text, answer) in [
        ("    ", 0x0000_0000_0001_0000),
        ("   0", 0x0000_0000_0000_0000),
        ("12.34", 0x0000_04D2_0200_0000),
        ("9.999", 0x0000_270F_0300_0000),
        ("-0.50", 0xFFFF_FFCE_0200_0000),
        (" -0.0", 0x0000_0000_0100_0000),
        ("?   ", 0x0000_0000_0000_0010),
        ("123-", 0x0000_0000_0000_0310),
    ] {
        assert_eq!(raw_read(&picture(text)), answer, "`{text}`");
    }
    assert_eq!(raw_read(&[0; 7]), 2);
    assert_eq!(raw_read(&[6, 0, 0, 0, 0, 0, 0, 16]), 3);
    assert_eq!(raw_draw(0, -50, 2, &mut [0; 8]), 0);
    assert_eq!(raw_draw(0, -50, 2, &mut [0; 9]), 2);
    assert_eq!(raw_draw(0, -1000, 0, &mut [0; 8]), 16);
}

#[test]
fn numbers_are_drawn() {
    assert_eq!(ht1130::glass_drawn(Reading::Dark), Ok([0; PICTURE]));
    for (value, places, text) in [
        (0, 0, "   0"),
        (7, 0, "   7"),
        (10, 0, "  10"),
        (9999, 0, "9999"),
        (0, 1, "  0.0"),
        (0, 3, "0.000"),
        (5, 1, "  0.5"),
        (5, 3, "0.005"),
        (1234, 2, "12.34"),
        (1234, 3, "1.234"),
        (9999, 3, "9.999"),
        (-6, 0, "  -6"),
        (-999, 0, "-999"),
        (-50, 2, "-0.50"),
        (-1, 2, "-0.01"),
        (-999, 2, "-9.99"),
        (-5, 1, " -0.5"),
    ] {
        let drawn = ht1130::glass_drawn(number(value, places));
        assert_eq!(drawn, Ok(picture(text)), "{value} with {places} places");
        reads(text, number(value, places));
    }
}

#[test]
fn a_refused_draw_leaves_the_picture() {
    let before = [0xA5; PICTURE];
    for (value, places) in [
        (10_000, 0),
        (-1000, 0),
        (0, 4),
        (1, 4),
        (-1, 3),
        (12_345, 2),
        (-1000, 3),
        (0, 255),
        (5, 128),
        (i32::MAX, 0),
        (i32::MIN, 0),
        (i32::MIN, 255),
        // in 16 bits these would be 0 and 1
        (65_536, 0),
        (-65_535, 1),
    ] {
        let mut picture = before;
        let drawn = ht1130::glass_draw(number(value, places), &mut picture);
        assert_eq!(
            (drawn, picture),
            (Err(refused(Refusal::Glass, 0)), before),
            "{value} with {places} places"
        );
    }
    // 2 goes before 16.
    for length in (0..20).filter(|&length| length != PICTURE) {
        for reading in [Reading::Dark, number(1, 0), number(-1000, 0)] {
            let mut picture = vec![0xA5; length];
            let drawn = ht1130::glass_draw(reading, &mut picture);
            assert_eq!(drawn, Err(refused(Refusal::BufferLength, 0)));
            assert_eq!(picture, vec![0xA5; length]);
        }
    }
}

/// Any byte but 0 is dark, and the numbers are not looked at.
#[test]
fn dark_is_drawn_blank() {
    for dark in 1..=255 {
        for (value, places) in [(0, 0), (-50, 2), (10_000, 0), (i32::MIN, 255)] {
            let mut picture = [0xA5; PICTURE];
            assert_eq!(raw_draw(dark, value, places, &mut picture), 0);
            assert_eq!(picture, [0; PICTURE]);
        }
    }
}

/// What fits: n digits, the fewest with |value| < 10^n and places < n, and a minus.
#[test]
fn what_fits_reads_back() {
    let mut fitting = 0;
    for value in -1100..=11_000i32 {
        for places in 0..=5 {
            let reading = number(value, places);
            let digits = value
                .unsigned_abs()
                .to_string()
                .len()
                .max(places as usize + 1);
            let drawn = ht1130::glass_drawn(reading);
            if digits + (value < 0) as usize > 4 {
                assert_eq!(drawn, Err(refused(Refusal::Glass, 0)), "{reading}");
                continue;
            }
            fitting += 1;
            assert_eq!(ht1130::glass_read(&drawn.unwrap()), Ok(reading));
        }
    }
    assert_eq!(fitting, 4 * 10_000 + 3 * 999);
}

#[test]
fn as_a_person_writes() {
    for (reading, text) in [
        (Reading::Dark, "dark"),
        (number(0, 0), "0"),
        (number(12, 0), "12"),
        (number(9999, 0), "9999"),
        (number(-999, 0), "-999"),
        (number(1234, 2), "12.34"),
        (number(5, 1), "0.5"),
        (number(0, 2), "0.00"),
        (number(-50, 2), "-0.50"),
        (number(-5, 3), "-0.005"),
        (number(1000, 3), "1.000"),
        (number(i32::MAX, 9), "2.147483647"),
        (number(i32::MIN, 9), "-2.147483648"),
        (number(i32::MIN, 10), "-0.2147483648"),
        (number(i32::MAX, 11), "0.02147483647"),
        (number(i32::MIN, 0), "-2147483648"),
    ] {
        assert_eq!(reading.to_string(), text);
    }
    let far = number(i32::MIN, 255).to_string();
    assert_eq!(far, format!("-0.{}2147483648", "0".repeat(245)));
    assert_eq!(number(0, 255).to_string().len(), 257);
}

#[test]
fn refusals_print_and_have_a_source() {
    let refused = ht1130::glass_read(&picture("12?4")).unwrap_err();
    assert!(refused.to_string().contains(" at digit 2,"), "{refused}");
    assert_eq!(
        refused.source().unwrap().to_string(),
        Refusal::Glass.to_string()
    );
    assert_eq!(Refusal::Glass.number(), 16);
}

// Machines

/// A mask that puts this picture on the display, from E0h on, and halts.
fn shows(picture: [u8; PICTURE]) -> [u8; MASK] {
    let mut code = vec![0x50, 0x0E]; // MOV R1R0,E0h
    for nibble in picture {
        code.extend([0x70 | nibble, 0x05, 0x10]); // MOV A,X; MOV [R1R0],A; INC R0
    }
    code.extend([0x37, 0x3E]); // HALT
    code.resize(MASK, 0x3E);
    code.try_into().unwrap()
}

/// The steps of it before HALT.
const SHOWN: u16 = 1 + 3 * 8;

fn powered(options: Options) -> Machine {
    let mut machine = Machine::zeroed();
    ht1130::power_on(&mut machine, options, &[0; IMAGE]).unwrap();
    machine
}

fn seen(commons: u8, text: &str) -> Machine {
    let mut machine = powered(Options {
        commons,
        ..Options::default()
    });
    let mask = shows(picture(text));
    ht1130::apply(&mut machine, Event::Run(SHOWN), &mask).unwrap();
    machine
}

#[test]
fn a_machine_is_read() {
    let reading = |machine: &Machine| ht1130::reading(machine);
    let mut machine = powered(Options::default());
    assert_eq!(reading(&machine), Ok(Reading::Dark));
    // Digit by digit, as the mask puts it there.
    let mask = shows(picture("12.34"));
    let digits = [
        Err(refused(Refusal::Glass, 1)),
        Err(refused(Refusal::Glass, 2)),
        Err(refused(Refusal::Glass, 3)),
        Ok(number(1234, 2)),
    ];
    ht1130::apply(&mut machine, Event::Run(1), &mask).unwrap();
    for expected in digits {
        ht1130::apply(&mut machine, Event::Run(6), &mask).unwrap();
        assert_eq!(reading(&machine), expected);
    }
    // Asleep it is dark; awake again it shows what it did.
    ht1130::apply(&mut machine, Event::Run(1), &mask).unwrap();
    assert_eq!(machine.cpu.status.halted, 1);
    assert_eq!(reading(&machine), Ok(Reading::Dark));
    ht1130::apply(&mut machine, Event::Int(0), &[]).unwrap();
    assert_eq!(reading(&machine), Ok(number(1234, 2)));
    // RES keeps the data memory, and so the picture; a fault does too.
    ht1130::apply(&mut machine, Event::Res, &[]).unwrap();
    assert_eq!(reading(&machine), Ok(number(1234, 2)));
    ht1130::apply(&mut machine, Event::Run(1), &[0x35; MASK]).unwrap();
    assert_eq!(machine.cpu.status.fault, 1);
    assert_eq!(reading(&machine), Ok(number(1234, 2)));
    // Nibbles 8 and on are not on the glass.
    machine.memory[136..].fill(15);
    machine.memory[127] = 15;
    assert_eq!(reading(&machine), Ok(number(1234, 2)));
}

/// Only 1, 4, 7 and the minus have neither d nor a point.
#[test]
fn three_commons_hide_bit_3() {
    for (text, four, three) in [
        ("-147", Ok(number(-147, 0)), Ok(number(-147, 0))),
        ("1.4.7.1.", Err(1), Ok(number(1471, 0))),
        (" 1.47", Ok(number(147, 2)), Ok(number(147, 0))),
        (" .   .", Err(0), Ok(Reading::Dark)),
        ("1470", Ok(number(1470, 0)), Err(3)),
        (" 9.47", Ok(number(947, 2)), Err(1)),
        ("2   ", Err(1), Err(0)),
    ] {
        for (commons, expected) in [(4, four), (3, three)] {
            let expected = expected.map_err(|digit| refused(Refusal::Glass, digit));
            let found = ht1130::reading(&seen(commons, text));
            assert_eq!(found, expected, "`{text}` on {commons} commons");
        }
    }
}

#[test]
fn machines_out_of_range() {
    let bad = Err(refused(Refusal::Machine, 0));
    assert_eq!(ht1130::reading(&Machine::zeroed()), bad);
    // 5 goes before 16.
    for text in ["12.34", "?   ", "    "] {
        let good = seen(4, text);
        let mut machine = good;
        machine.cpu.control.pc = 4096;
        assert_eq!(ht1130::reading(&machine), bad);
        let mut machine = good;
        machine.cpu.status.halted = 1;
        machine.cpu.status.fault = 1;
        assert_eq!(ht1130::reading(&machine), bad);
        // Nibbles over 15 are 5 here, and never 3.
        for at in [0, 127, 128, 135, 136, 159] {
            let mut machine = good;
            machine.memory[at] = 16;
            assert_eq!(ht1130::reading(&machine), bad);
        }
    }
}

#[test]
fn a_machine_and_its_report_agree() {
    for text in ["12.34", "-0.50", "   0", "1 23", "  - ", "?123", "    "] {
        for commons in [3, 4] {
            for halted in [0, 1] {
                let mut machine = seen(commons, text);
                machine.cpu.status.halted = halted;
                let report = ht1130::report_bytes(&machine).unwrap();
                assert_eq!(
                    ht1130::reading(&machine),
                    ht1130::glass_read(&report[16..24])
                );
            }
        }
    }
}
