//! How long an edge is held, as a caller meets it. Cycles are added up by hand.

use ht1130::{ffi, Bound, Event, Machine, Options, Refusal, Verdict, IMAGE, MASK};
use Bound::{Cycles, NoBound, NotReached};

/// NOP but for what is given.
fn mask(parts: &[(usize, &[u8])]) -> [u8; MASK] {
    let mut mask = [0x3E; MASK];
    for (at, code) in parts {
        mask[*at..at + code.len()].copy_from_slice(code);
    }
    mask
}

/// A main program that waits with interrupts on, RETI at 4, and this at 8.
fn handler(code: &[u8]) -> [u8; MASK] {
    mask(&[(0, &[0x2C, 0xE0, 0x01]), (4, &[0x2F]), (8, code)])
}

/// A main program that calls 100h, where this is, for ever.
fn subroutine(code: &[u8]) -> [u8; MASK] {
    mask(&[(0, &[0xF1, 0x00, 0xE0, 0x00]), (0x100, code)])
}

#[track_caller]
fn bounds(mask: &[u8], expected: &[(u16, u8, Bound)]) {
    assert_eq!(ht1130::check(mask, &mut [0; MASK]), Ok(Verdict::Passed));
    for &(address, level, bound) in expected {
        let found = ht1130::bound(mask, address, level);
        assert_eq!(found, Ok(bound), "{address:03X} level {level}");
    }
}

#[test]
fn cycles() {
    // RETI; INC R4, RETI
    bounds(
        &handler(&[0x18, 0x2F]),
        &[
            (4, 2, Cycles(1)),
            (8, 2, Cycles(2)),
            (9, 2, Cycles(1)),
            (10, 2, NotReached),
        ],
    );
    // MOV R1R0,23h (2), READ R4A (2), RET in a subroutine
    bounds(
        &subroutine(&[0x53, 0x02, 0x4C, 0x2E]),
        &[
            (0x100, 1, Cycles(5)),
            (0x101, 1, NotReached),
            (0x102, 1, Cycles(3)),
            (0x103, 1, Cycles(1)),
            (0x100, 2, NotReached),
        ],
    );
    // RETI in a subroutine and RET in a handler are returns too.
    bounds(&subroutine(&[0x2F]), &[(0x100, 1, Cycles(1))]);
    bounds(&handler(&[0x2E]), &[(8, 2, Cycles(1))]);
}

#[test]
fn branches() {
    // JC 010h; NOP, NOP, RETI. At 010h READ R4A, READ R4A, RETI: as many instructions, more cycles
    let by_cycles = mask(&[
        (0, &[0x2C, 0xE0, 0x01]),
        (4, &[0x2F]),
        (8, &[0xC0, 0x10, 0x3E, 0x3E, 0x2F]),
        (0x10, &[0x4C, 0x4C, 0x2F]),
    ]);
    bounds(
        &by_cycles,
        &[
            (8, 2, Cycles(7)),
            (10, 2, Cycles(3)),
            (0x10, 2, Cycles(5)),
            (0x11, 2, Cycles(3)),
        ],
    );
    // JC 00Dh over three NOPs to the RETI: here the longer side is the one that goes on
    bounds(
        &handler(&[0xC0, 0x0D, 0x3E, 0x3E, 0x3E, 0x2F]),
        &[(8, 2, Cycles(6))],
    );
    // A branch keeps bit 11 of the moved PC: JC at 7FEh goes to 810h, and to 800h.
    let over = mask(&[
        (0, &[0xF7, 0xFE, 0xE0, 0x00]),
        (0x010, &[0x37, 0x3E]),
        (0x7FE, &[0xC0, 0x10]),
        (0x800, &[0x2E]),
        (0x810, &[0x3E, 0x2E]),
    ]);
    bounds(&over, &[(0x7FE, 1, Cycles(4)), (0x010, 1, NotReached)]);
}

/// Sixty branches in a row, each of which may skip a NOP: too many chains to try.
#[test]
fn diamonds() {
    let mut code = Vec::new();
    for n in 0..60 {
        code.extend([0xC0, 0x08 + 3 * n + 3, 0x3E]);
    }
    code.push(0x2F);
    bounds(&handler(&code), &[(8, 2, Cycles(60 * 3 + 1))]);
}

#[test]
fn vectors_of_ei_are_not_followed() {
    // EI, NOP, RETI: the edge is held until the return, and taken then
    bounds(&handler(&[0x2C, 0x3E, 0x2F]), &[(8, 2, Cycles(3))]);
    // EI in a subroutine brings a handler that loops; the subroutine stays bounded.
    let loops = mask(&[
        (0, &[0xF1, 0x00, 0xE0, 0x00]),
        (4, &[0xE0, 0x04]),
        (8, &[0x2F]),
        (0x100, &[0x2C, 0x2E]),
    ]);
    bounds(
        &loops,
        &[
            (0x100, 1, Cycles(2)),
            (4, 2, NoBound),
            (8, 2, Cycles(1)),
            (4, 1, NotReached),
        ],
    );
}

#[test]
fn no_bound() {
    // JMP 008h
    bounds(
        &handler(&[0xE0, 0x08]),
        &[(4, 2, Cycles(1)), (8, 2, NoBound)],
    );
    // NOP, JMP 008h
    bounds(
        &handler(&[0x3E, 0xE0, 0x08]),
        &[(8, 2, NoBound), (9, 2, NoBound)],
    );
    // NOP, JC 008h, RETI: the loop can be left, but need not be
    bounds(
        &handler(&[0x3E, 0xC0, 0x08, 0x2F]),
        &[(8, 2, NoBound), (9, 2, NoBound), (11, 2, Cycles(1))],
    );
    // JC 00Bh, RETI; at 00Bh JMP 00Bh: a loop by one side alone
    bounds(
        &handler(&[0xC0, 0x0B, 0x2F, 0xE0, 0x0B]),
        &[(8, 2, NoBound), (10, 2, Cycles(1)), (11, 2, NoBound)],
    );
    // HALT, RET
    bounds(
        &subroutine(&[0x37, 0x3E, 0x2E]),
        &[(0x100, 1, NoBound), (0x102, 1, Cycles(1))],
    );
    // JC 104h, NOP, RET; at 104h HALT, RET
    bounds(
        &subroutine(&[0xC1, 0x04, 0x3E, 0x2E, 0x37, 0x3E, 0x2E]),
        &[
            (0x100, 1, NoBound),
            (0x102, 1, Cycles(2)),
            (0x104, 1, NoBound),
        ],
    );
    // EI, then NOPs round and round: the code of main, in a handler too
    bounds(
        &mask(&[(0, &[0x2C])]),
        &[(8, 2, NoBound), (0, 2, NoBound), (4095, 2, NoBound)],
    );
}

#[test]
fn not_reached() {
    // Level 0, marked or not; vectors without EI
    let nops = mask(&[]);
    for level in 0..3 {
        bounds(
            &nops,
            &[
                (0, level, NotReached),
                (8, level, NotReached),
                (4095, level, NotReached),
            ],
        );
    }
    // HALT, JMP 000h: in main an edge is taken, and not held
    bounds(
        &mask(&[(0, &[0x37, 0x3E, 0xE0, 0x00])]),
        &[(0, 0, NotReached)],
    );
    // At a bounded pair's address in level 0, and in the other level
    let code = subroutine(&[0x2E]);
    bounds(
        &code,
        &[
            (0x100, 0, NotReached),
            (0x100, 1, Cycles(1)),
            (0x100, 2, NotReached),
        ],
    );
    // A return that nothing leads to
    bounds(&subroutine(&[0x2E, 0x2E]), &[(0x101, 1, NotReached)]);
}

/// Both levels at one address: the same chains.
#[test]
fn shared_code() {
    // JMP 100h at 4 and at 8; JMP 010h, and there EI, CALL 100h, JMP 011h
    let shared = mask(&[
        (0, &[0xE0, 0x10]),
        (4, &[0xE1, 0x00]),
        (8, &[0xE1, 0x00]),
        (0x10, &[0x2C, 0xF1, 0x00, 0xE0, 0x11]),
        (0x100, &[0x18, 0x2F]),
    ]);
    bounds(
        &shared,
        &[
            (4, 2, Cycles(4)),
            (8, 2, Cycles(4)),
            (0x100, 1, Cycles(2)),
            (0x100, 2, Cycles(2)),
        ],
    );
}

#[test]
fn the_last_address() {
    bounds(
        &mask(&[(0, &[0xFF, 0xFF, 0xE0, 0x00]), (0xFFF, &[0x2E])]),
        &[(0xFFF, 1, Cycles(1)), (0xFFE, 1, NotReached)],
    );
    // Over the end: JC at FFFh takes its second byte from 0, and goes to 1E1h or on to 001h, where JMP 12Eh has a RET
    let over = mask(&[
        (0, &[0xE1, 0x2E]),
        (0x12E, &[0xFF, 0xFF, 0xE1, 0x2E]),
        (0x1E1, &[0x3E, 0x2E]),
        (0xFFF, &[0xC1]),
    ]);
    bounds(
        &over,
        &[
            (0xFFF, 1, Cycles(4)),
            (0x1E1, 1, Cycles(2)),
            (1, 1, Cycles(1)),
            (0, 1, NotReached),
        ],
    );
}

/// Through nearly every address; a return at the last.
#[test]
fn longest_chains() {
    // CALL 003h, JMP 000h, whose second byte is RR A
    let mut long = mask(&[(0, &[0xF0, 0x03, 0xE0, 0x00]), (0xFFF, &[0x2E])]);
    bounds(&long, &[(3, 1, Cycles(4093)), (0xFFE, 1, Cycles(2))]);
    // READ R4A has a byte and two cycles.
    long[4..0xFFF].fill(0x4C);
    bounds(&long, &[(3, 1, Cycles(1 + 2 * 4091 + 1))]);
}

const SHORT: usize = MASK - 1;

#[test]
fn refusals_in_order() {
    let passes = handler(&[0x2F]);
    let fails = mask(&[(0, &[0x35])]);
    let long = [0x3E; MASK + 1];
    for mask in [&passes[..SHORT], &fails[..SHORT], &long, &[]] {
        for (address, level) in [(8, 2), (4096, 2), (8, 3), (0, 0)] {
            let found = ht1130::bound(mask, address, level);
            assert_eq!(found, Err(Refusal::MaskLength), "{} bytes", mask.len());
        }
    }
    for mask in [&passes, &fails] {
        for (address, level) in [
            (4096, 0),
            (4096, 2),
            (4104, 2),
            (65535, 1),
            (0, 3),
            (8, 3),
            (4095, 255),
            (65535, 255),
        ] {
            let found = ht1130::bound(mask, address, level);
            assert_eq!(
                found,
                Err(Refusal::Machine),
                "address {address}, level {level}"
            );
        }
    }
    for (address, level) in [(0, 0), (0, 1), (8, 2), (4095, 2)] {
        assert_eq!(
            ht1130::bound(&fails, address, level),
            Err(Refusal::MaskFails)
        );
        assert!(ht1130::bound(&passes, address, level).is_ok());
    }
    assert_eq!(Refusal::MaskFails.number(), 15);
    assert_eq!(
        Refusal::MaskFails.to_string(),
        "mask fails, so it has no bounds"
    );
}

#[test]
fn raw_answers() {
    let code = mask(&[
        (0, &[0x2C, 0xE0, 0x01]),
        (4, &[0xE0, 0x04]),
        (8, &[0x18, 0x2F]),
    ]);
    let fails = mask(&[(0, &[0x35])]);
    for (mask, address, level, answer) in [
        (&code[..], 8, 2, 2 << 8 | 2 << 32),
        (&code, 4, 2, 1 << 8),
        (&code, 8, 1, 0),
        (&code, 1, 0, 0),
        (&code[..SHORT], 8, 2, 1),
        (&code, 4096, 2, 5),
        (&code, 8, 3, 5),
        (&fails, 8, 2, 15),
    ] {
        // SAFETY: the slice is valid for the call.
        let found = unsafe { ffi::ht1130_bound(mask.as_ptr(), mask.len(), address, level) };
        assert_eq!(found, answer, "{address:03X} level {level}");
    }
}

/// Runs a machine from a pair, with an edge held, until it is in level 0: the cycles that it spent.
fn held(machine: &mut Machine, code: &[u8], address: u16, level: u8) -> u32 {
    machine.cpu.control.pc = address;
    machine.cpu.interrupts.level = level;
    machine.cpu.interrupts.enabled = 1;
    machine.cpu.interrupts.held = 1;
    machine.cpu.stack.address = 0x123;
    let before = machine.cpu.cycles;
    while machine.cpu.interrupts.level != 0 {
        ht1130::apply(machine, Event::Run(1), code).unwrap();
    }
    machine.cpu.cycles - before
}

#[test]
fn the_engine_keeps_it() {
    // IN A,PM; JA0 00Eh; NOP, NOP, RETI; at 00Eh READ R4A, READ R4A, RETI
    let code = handler(&[0x32, 0x80, 0x0E, 0x3E, 0x3E, 0x2F, 0x4C, 0x4C, 0x2F]);
    bounds(&code, &[(8, 2, Cycles(8)), (9, 2, Cycles(7))]);
    for (pm, spent) in [(15, 8), (14, 6)] {
        let mut machine = Machine::zeroed();
        ht1130::power_on(&mut machine, Options::default(), &[0; IMAGE]).unwrap();
        let pins = Event::Pins { pm, ps: 15, pp: 15 };
        ht1130::apply(&mut machine, pins, &[]).unwrap();
        assert_eq!(held(&mut machine, &code, 8, 2), spent);
        assert_eq!(machine.cpu.control.pc, 0x123);
        // The edge waited, and is taken by the next step.
        ht1130::apply(&mut machine, Event::Run(1), &code).unwrap();
        assert_eq!(
            (machine.cpu.control.pc, machine.cpu.interrupts.level),
            (8, 2)
        );
        assert_eq!(machine.cpu.interrupts.held, 0);
    }
}
