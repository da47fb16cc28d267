//! The safe functions, as a caller meets them.

use ht1130::{branch, form, Event, Instruction, Machine, Options, Pair, Refusal, ScriptRefusal};
use ht1130::{Verdict, EXTERNAL_CLOCK, IMAGE, MASK, REPORT, SOUND_OFF, WAY};

/// NOP but for what is given.
fn mask(parts: &[(usize, &[u8])]) -> [u8; MASK] {
    let mut mask = [0x3E; MASK];
    for (at, code) in parts {
        mask[*at..at + code.len()].copy_from_slice(code);
    }
    mask
}

fn powered(options: Options) -> Machine {
    let mut machine = Machine::zeroed();
    ht1130::power_on(&mut machine, options, &[0; IMAGE]).unwrap();
    machine
}

const POWER_ON: [u8; 10] = [6, 0, 1, 0, 2, 4, 0, 0, 0, 0];

#[test]
fn events() {
    let halt = mask(&[(0, &[0x37, 0x3E])]);
    let mut m = powered(Options {
        ps: 2,
        ..Options::default()
    });
    assert_eq!(m.cpu.outputs.channel, SOUND_OFF);
    ht1130::apply(&mut m, Event::Run(10), &halt).unwrap();
    assert_eq!(
        (m.cpu.status.halted, m.cpu.control.pc, m.cpu.cycles),
        (1, 2, 2)
    );
    ht1130::apply(
        &mut m,
        Event::Pins {
            pm: 1,
            ps: 13,
            pp: 15,
        },
        &[],
    )
    .unwrap();
    assert_eq!((m.cpu.status.halted, m.cpu.interrupts.held), (0, 1));
    assert_eq!((m.cpu.pins.pm, m.cpu.pins.ps, m.cpu.pins.pp), (1, 13, 15));
    ht1130::apply(&mut m, Event::Int(0), &[]).unwrap();
    assert_eq!(m.cpu.pins.intr, 0);
    ht1130::apply(&mut m, Event::Res, &[]).unwrap();
    assert_eq!((m.cpu.control.pc, m.cpu.interrupts.held), (0, 0));

    let mut m = powered(Options {
        rate: EXTERNAL_CLOCK,
        ..Options::default()
    });
    m.cpu.timer.running = 1;
    ht1130::apply(&mut m, Event::Tmclk(258), &[]).unwrap();
    assert_eq!((m.cpu.timer.count, m.cpu.control.tf), (2, 1));
}

#[test]
fn pulses_asleep() {
    let options = Options {
        rate: EXTERNAL_CLOCK,
        ps: 2,
        ..Options::default()
    };
    // TIMER C8H, TIMER ON, EI, HALT; RETI at 8
    let code = mask(&[(0, &[0x47, 0xC8, 0x38, 0x2C, 0x37, 0x3E]), (8, &[0x2F])]);
    let fall = Event::Pins {
        pm: 15,
        ps: 13,
        pp: 15,
    };
    for wake in [Event::Int(0), fall] {
        let mut m = powered(options);
        ht1130::apply(&mut m, Event::Run(9), &code).unwrap();
        assert_eq!((m.cpu.status.halted, m.cpu.timer.count), (1, 0xC8));
        let mut asleep = m;
        ht1130::apply(&mut m, Event::Tmclk(55), &[]).unwrap();
        asleep.cpu.timer.count = 255;
        assert_eq!(m, asleep);
        // Past 255, and nothing else changes: no wake, no held edge.
        ht1130::apply(&mut m, Event::Tmclk(1), &[]).unwrap();
        asleep.cpu.timer.count = 0;
        asleep.cpu.control.tf = 1;
        assert_eq!(m, asleep);
        // TF stays set where more pulses do not pass it again.
        ht1130::apply(&mut m, Event::Tmclk(3), &[]).unwrap();
        asleep.cpu.timer.count = 3;
        assert_eq!(m, asleep);
        ht1130::apply(&mut m, Event::Run(9), &code).unwrap();
        assert_eq!(m, asleep);
        // The held edge goes first, and TF after its RETI.
        ht1130::apply(&mut m, wake, &[]).unwrap();
        assert_eq!((m.cpu.status.halted, m.cpu.interrupts.held), (0, 1));
        ht1130::apply(&mut m, Event::Run(1), &code).unwrap();
        assert_eq!((m.cpu.control.pc, m.cpu.control.tf), (8, 1));
        ht1130::apply(&mut m, Event::Run(2), &code).unwrap();
        assert_eq!((m.cpu.control.pc, m.cpu.control.tf), (4, 0));
    }
}

#[test]
fn strays() {
    // MOV R1R0,7FH; MOV R3R2,0E0H; MOV A,[R1R0]; INC [R3R2]
    let beside = mask(&[(0, &[0x5F, 0x07, 0x60, 0x0E, 0x04, 0x0E])]);
    // MOV R1R0,80H; MOV R3R2,0DFH; MOV A,[R1R0]; INC [R3R2]; READ R4A; READ MR0A; RET
    let inside = mask(&[(0, &[0x50, 0x08, 0x6F, 0x0D, 0x04, 0x0E, 0x4C, 0x4E, 0x2E])]);
    let mut m = powered(Options::default());
    ht1130::apply(&mut m, Event::Run(9), &beside).unwrap();
    assert_eq!(ht1130::gap_count(&m), Ok(0));
    ht1130::apply(&mut m, Event::Res, &[]).unwrap();
    for (steps, count) in [(2, 0), (1, 1), (1, 3), (1, 4), (1, 5), (9, 5)] {
        ht1130::apply(&mut m, Event::Run(steps), &inside).unwrap();
        assert_eq!(ht1130::gap_count(&m), Ok(count));
    }
    assert_eq!((m.cpu.status.fault, m.gap), (3, 5));
    ht1130::apply(&mut m, Event::Res, &[]).unwrap();
    assert_eq!(ht1130::gap_count(&m), Ok(5));
    let refused = ht1130::apply(&mut m, Event::Run(4), &inside[1..]);
    assert_eq!(
        (refused, ht1130::gap_count(&m)),
        (Err(Refusal::MaskLength), Ok(5))
    );
    m.gap = 65533;
    for count in [65533, 65533, 65534, 65535, 65535] {
        ht1130::apply(&mut m, Event::Run(1), &inside).unwrap();
        assert_eq!(ht1130::gap_count(&m), Ok(count));
    }
    m.cpu.control.pc = 4096;
    assert_eq!(ht1130::gap_count(&m), Err(Refusal::Machine));
    assert_eq!(ht1130::gap_count(&Machine::zeroed()), Err(Refusal::Machine));
    ht1130::power_on(&mut m, Options::default(), &[0; IMAGE]).unwrap();
    assert_eq!(ht1130::gap_count(&m), Ok(0));
}

#[test]
fn refusals() {
    let nops = mask(&[]);
    let mut m = powered(Options::default());
    let before = m;
    let pins = Event::Pins {
        pm: 0,
        ps: 16,
        pp: 0,
    };
    assert_eq!(
        ht1130::apply(&mut m, Event::Run(1), &nops[1..]),
        Err(Refusal::MaskLength)
    );
    assert_eq!(ht1130::apply(&mut m, pins, &[]), Err(Refusal::Value));
    assert_eq!(
        ht1130::apply(&mut m, Event::Int(2), &[]),
        Err(Refusal::Value)
    );
    assert_eq!(
        ht1130::apply_kind(&mut m, 1, 0, 0, 0, 0, &nops),
        Err(Refusal::Kind)
    );
    assert_eq!(ht1130::report(&m, &mut [0; 47]), Err(Refusal::BufferLength));
    assert_eq!(
        ht1130::power_on(&mut m, Options::default(), &[0; 165]),
        Err(Refusal::BufferLength)
    );
    let six = Options {
        rate: 6,
        ..Options::default()
    };
    assert_eq!(
        ht1130::power_on(&mut m, six, &[0; IMAGE]),
        Err(Refusal::Option)
    );
    assert_eq!(m, before);
    assert_eq!(
        ht1130::report_bytes(&Machine::zeroed()),
        Err(Refusal::Machine)
    );
    assert_eq!(
        ht1130::check(&nops, &mut [0; 4097]),
        Err(Refusal::BufferLength)
    );
    assert_eq!(ht1130::read(&nops, 4096), Err(Refusal::Machine));
    assert_eq!(
        ht1130::write(form::BRANCH, branch::JC, 2048),
        Err(Refusal::Value)
    );
    assert_eq!(ht1130::write(60, 0, 0), Err(Refusal::Value));
}

#[test]
fn scripts() {
    let nops = mask(&[]);
    let refused = |script: &[u8], room| ht1130::check_script(&nops, script, room).unwrap_err();
    let at = |refusal, offset| ScriptRefusal { refusal, offset };
    assert_eq!(refused(&[5, 0, 6], 48), at(Refusal::RecordLength, 0));
    assert_eq!(refused(&[], 48), at(Refusal::NoPowerOn, 0));
    assert_eq!(refused(&POWER_ON, 47), at(Refusal::ReportRoom, 0));
    let unknown = [&POWER_ON[..], &[0, 0, 9, 0]].concat();
    assert_eq!(refused(&unknown, 96), at(Refusal::Kind, 10));
    assert_eq!(
        refused(&unknown, 96).to_string(),
        "unknown kind of event at byte 10"
    );

    let run = [&POWER_ON[..], &[2, 0, 2, 0, 3, 0]].concat();
    let mut out = [0xA5; 2 * REPORT + 1];
    ht1130::run_script(&nops, &run, &mut out).unwrap();
    assert_eq!(
        (out[REPORT], out[REPORT + 4], out[2 * REPORT]),
        (44, 3, 0xA5)
    );
    let reports = ht1130::reports(&nops, &run).unwrap();
    assert_eq!(reports.as_flattened(), &out[..2 * REPORT]);
    assert_eq!(ht1130::reports(&nops, &[]), Err(at(Refusal::NoPowerOn, 0)));
    assert_eq!(
        ht1130::reports(&nops, &[0; 70_000]),
        Err(at(Refusal::RecordLength, 0))
    );
}

#[test]
fn checks() {
    let mut marks = [0; MASK];
    assert_eq!(ht1130::check(&mask(&[]), &mut marks), Ok(Verdict::Passed));
    assert_eq!(marks, [1; MASK]);
    let verdict = ht1130::check(&mask(&[(0, &[0xF1, 0x23])]), &mut marks);
    assert_eq!(
        verdict,
        Ok(Verdict::Failed {
            fault: 2,
            address: 0,
            level: 1
        })
    );
    let verdict = ht1130::check(&mask(&[(0x123, &[0x2E])]), &mut marks);
    assert_eq!(
        verdict,
        Ok(Verdict::Failed {
            fault: 3,
            address: 0x123,
            level: 0
        })
    );
}

/// Address and level of each pair.
fn way(mask: &[u8]) -> Vec<(u16, u8)> {
    let mut list = [0xA5; WAY];
    let count = ht1130::way(mask, &mut list).unwrap();
    ht1130::pairs(&list[..3 * count])
        .map(|Pair { address, level }| (address, level))
        .collect()
}

#[test]
fn ways() {
    // CALL 010h, and a CALL there
    let nested = mask(&[(0, &[0xF0, 0x10]), (0x10, &[0xF0, 0x10])]);
    assert_eq!(way(&nested), [(0, 0), (0x10, 1)]);
    // The first instruction cannot be read
    assert_eq!(way(&mask(&[(0, &[0x35])])), [(0, 0)]);
    // JMP 3FFh; EI there; RETI at 4, and a CALL in the handler at 8
    let handler = mask(&[
        (0, &[0xE3, 0xFF]),
        (4, &[0x2F]),
        (8, &[0xF0, 0x10]),
        (0x3FF, &[0x2C]),
    ]);
    assert_eq!(way(&handler), [(0, 0), (0x3FF, 0), (8, 2)]);
    // Two places that cannot be read: the lower one is named, though it is farther
    let lower = mask(&[(0, &[0xC0, 0x20]), (5, &[0x35]), (0x20, &[0x35])]);
    assert_eq!(way(&lower), [(0, 0), (2, 0), (3, 0), (4, 0), (5, 0)]);
    // Through every address in level 0, then again in level 1 to the same CALL
    let long = way(&mask(&[(0xFFD, &[0xF0, 0x00])]));
    let once = |level| (0..=0xFFD).map(move |address| (address, level));
    assert!(long.into_iter().eq(once(0).chain(once(1))));
}

#[test]
fn the_shorter_way_or_either() {
    // JC 020h; else JMP 030h at 002h; from both on to 040h, which cannot be read
    let unequal = mask(&[
        (0, &[0xC0, 0x20, 0xE0, 0x30]),
        (0x20, &[0xE0, 0x40]),
        (0x30, &[0xE0, 0x40]),
        (0x40, &[0x35]),
    ]);
    assert_eq!(way(&unequal), [(0, 0), (0x20, 0), (0x40, 0)]);
    // The same, but JMP 040h at 002h
    let equal = mask(&[
        (0, &[0xC0, 0x20, 0xE0, 0x40]),
        (0x20, &[0xE0, 0x40]),
        (0x40, &[0x35]),
    ]);
    let found = way(&equal);
    assert!(
        found == [(0, 0), (0x20, 0), (0x40, 0)] || found == [(0, 0), (2, 0), (0x40, 0)],
        "{found:X?}"
    );
}

#[test]
fn ways_refused() {
    let passes = mask(&[]);
    // CALL 010h, and a CALL there: two pairs
    let fails = mask(&[(0, &[0xF0, 0x10]), (0x10, &[0xF0, 0x10])]);
    let lent = |mask: &[u8], length: usize| {
        let mut bytes = [0xA5; WAY + 20];
        let answer = ht1130::way(mask, &mut bytes[10..10 + length]);
        (answer, bytes)
    };
    // 1 before 10 before 11
    for (mask, length, refusal) in [
        (&passes[1..], 0, Refusal::MaskLength),
        (&fails[1..], 5, Refusal::MaskLength),
        (&fails[1..], WAY, Refusal::MaskLength),
        (&passes[..], 0, Refusal::MaskPasses),
        (&passes[..], WAY, Refusal::MaskPasses),
        (&fails[..], 0, Refusal::ListLength),
        (&fails[..], 1, Refusal::ListLength),
        (&fails[..], 5, Refusal::ListLength),
    ] {
        let (answer, bytes) = lent(mask, length);
        assert_eq!(answer, Err(refusal), "list of {length} bytes");
        assert_eq!(bytes, [0xA5; WAY + 20], "{refusal:?} wrote something");
    }
    // Exactly long enough, and longer: what follows the way stays.
    for length in [6, 7, 8, 9, WAY] {
        let (answer, bytes) = lent(&fails, length);
        let mut expected = [0xA5; WAY + 20];
        expected[10..16].copy_from_slice(&[0, 0, 0, 0x10, 0, 1]);
        assert_eq!((answer, bytes), (Ok(2), expected), "list of {length} bytes");
    }
    assert_eq!(
        (
            Refusal::MaskPasses.number(),
            Refusal::ListLength.to_string()
        ),
        (10, "list too short for the way".into())
    );
    assert_eq!(Refusal::ListLength.number(), 11);
}

#[test]
fn instructions() {
    let code = ht1130::write(form::BRANCH, branch::JTMR, 0x123).unwrap();
    assert_eq!(*code, [0xD1, 0x23]);
    assert_eq!(*ht1130::write(form::NOP, 0, 0).unwrap(), [0x3E]);
    let read = ht1130::read(&mask(&[(5, &code)]), 5).unwrap();
    let expected = Instruction {
        form: form::BRANCH,
        a: branch::JTMR,
        b: 0x123,
        length: 2,
        cycles: 2,
    };
    assert_eq!(read, Some(expected));
    assert_eq!(form::NAMES[form::BRANCH as usize], "BRANCH");
    assert_eq!(ht1130::read(&mask(&[(0, &[0x35])]), 0), Ok(None));
}

/// The library keeps no state, so threads do not disturb each other.
#[test]
fn threads() {
    let work = |n: u8| {
        let mask = mask(&[(0, &[0x2C, 0xF1, n, 0xE0, 0x03]), (0x100, &[0x2E; 256])]);
        let mut marks = [0; MASK];
        let verdict = ht1130::check(&mask, &mut marks).unwrap();
        let script = [&POWER_ON[..], &[2, 0, 2, 0, n, n]].concat();
        (
            verdict,
            marks.to_vec(),
            ht1130::reports(&mask, &script).unwrap(),
        )
    };
    let alone: Vec<_> = (0..8).map(work).collect();
    std::thread::scope(|scope| {
        for n in 0..8 {
            let expected = &alone[n as usize];
            scope.spawn(move || (0..50).for_each(|_| assert!(work(n) == *expected)));
        }
    });
}

/// Each number has its words in the list that the commands read too, and no line is left over.
#[test]
fn words() {
    let refusals = [
        Refusal::MaskLength,
        Refusal::BufferLength,
        Refusal::Value,
        Refusal::Option,
        Refusal::Machine,
        Refusal::RecordLength,
        Refusal::Kind,
        Refusal::NoPowerOn,
        Refusal::ReportRoom,
        Refusal::MaskPasses,
        Refusal::ListLength,
        Refusal::Syntax,
        Refusal::Range,
        Refusal::Label,
        Refusal::MaskFails,
        Refusal::Glass,
    ];
    let refused = refusals.map(|one| format!("refused {}: {one}\n", one.number()));
    let faults = [1, 2, 3].map(|fault| {
        let verdict = Verdict::Failed {
            fault,
            address: 0x1D4,
            level: 2,
        };
        let text = verdict.to_string();
        let words = text.strip_suffix(" at 1D4, level 2").unwrap();
        format!("fault {fault}: {words}\n")
    });
    assert_eq!(
        refused.concat() + &faults.concat(),
        include_str!("../src/refusals.txt")
    );
    assert_eq!(Refusal::Value.to_string(), "value out of range");
    assert_eq!(Verdict::Passed.to_string(), "passed");
}
