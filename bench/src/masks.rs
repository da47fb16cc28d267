//! Masks: hand-made ones for speed, each a loop that never ends, and random ones.

use crate::plain::{decode, Mask, MASK};
use crate::prng::Prng;

const NOP: u8 = 0x3E;

fn with(parts: &[(usize, &[u8])]) -> Mask {
    let mut mask = [NOP; MASK];
    for (at, bytes) in parts {
        mask[*at..at + bytes.len()].copy_from_slice(bytes);
    }
    mask
}

/// Sums, differences and decimal adjustment on a few nibbles of memory.
pub fn arithmetic() -> Mask {
    with(&[(
        0,
        &[
            0x50, 0x00, // MOV R1R0,00h
            0x46, 0x0B, // MOV R4,Bh
            0x09, // 004: ADD A,[R1R0]
            0x36, // DAA
            0x05, // MOV [R1R0],A
            0x10, // INC R0
            0x08, // ADC A,[R1R0]
            0x36, // DAA
            0x0C, // INC [R1R0]
            0x0B, // SUB A,[R1R0]
            0x40, 0x07, // ADD A,7
            0x0A, // SBC A,[R1R0]
            0x31, // INC A
            0x41, 0x03, // SUB A,3
            0xC8, 0x16, // JNC 016h
            0x1B, // XOR A,[R1R0]
            0x01, // RL A
            0x19, // 016: DEC R4
            0xD8, 0x04, // JNZ R4,004h
            0xE0, 0x02, // JMP 002h
        ],
    )])
}

/// Copies 00h-3Fh to 40h-7Fh through both pointers, for ever.
pub fn copy() -> Mask {
    with(&[(
        0,
        &[
            0x50, 0x00, // MOV R1R0,00h
            0x60, 0x04, // MOV R3R2,40h
            0x04, // 004: MOV A,[R1R0]
            0x07, // MOV [R3R2],A
            0x10, // INC R0
            0x14, // INC R2
            0xA0, 0x04, // JNZ R0,004h
            0x12, // INC R1
            0x16, // INC R3
            0x23, // MOV A,R1
            0x90, 0x00, // JA2 000h
            0xE0, 0x04, // JMP 004h
        ],
    )])
}

/// The timer overflows every 16 counts; the handler loads it again.
pub fn timer() -> Mask {
    with(&[
        (0x00, &[0xE0, 0x10]), // JMP 010h
        (0x04, &[0xE0, 0x20]), // JMP 020h
        (0x08, &[0x2F]),       // RETI
        (
            0x10,
            &[
                0x50, 0x00, // MOV R1R0,00h
                0x47, 0xF0, // TIMER F0h
                0x38, // TIMER ON
                0x2C, // EI
                0x31, // 016: INC A
                0x09, // ADD A,[R1R0]
                0xE0, 0x16, // JMP 016h
            ],
        ),
        (
            0x20,
            &[
                0x47, 0xF0, // TIMER F0h
                0x0C, // INC [R1R0]
                0x2F, // RETI
            ],
        ),
    ])
}

/// All four table reads, from page 1 and page 15.
pub fn tables() -> Mask {
    let mut mask = with(&[(0, &[0xE1, 0x00])]); // JMP 100h
    let mut prng = Prng::new(1130);
    for at in (0x110..0x200).chain(0xF00..0x1000) {
        mask[at] = prng.byte();
    }
    let code = [
        0x4C, // 100: READ R4A
        0x4E, // READ MR0A
        0x10, // INC R0
        0x4D, // READF R4A
        0x4F, // READF MR0A
        0x31, // INC A
        0x4C, // READ R4A
        0x12, // INC R1
        0xE1, 0x00, // JMP 100h
    ];
    mask[0x100..0x100 + code.len()].copy_from_slice(&code);
    mask
}

/// A loop of 1,000 random instructions, every kind mixed, for jumps that are hard to
/// foresee. A branch goes to the next one, taken or not; what leaves the loop is left
/// out.
pub fn scattered() -> Mask {
    let mut mask = with(&[
        (0x00, &[0xE0, 0x10]), // JMP 010h
        (0x04, &[0x2F]),       // RETI
        (0x08, &[0x2F]),       // RETI
    ]);
    let mut prng = Prng::new(1130);
    let mut at = 0x10;
    for _ in 0..1000 {
        let (length, first, second) = loop {
            let instruction = instruction(&mut prng, true);
            if !matches!(instruction.1, 0xE0..=0xEF) {
                break instruction;
            }
        };
        let next = at + length;
        let code = match first {
            0x80.. => [first & 0xF8 | (next >> 8) as u8, next as u8],
            _ => [first, second],
        };
        mask[at..next].copy_from_slice(&code[..length]);
        at = next;
    }
    mask[at..at + 2].copy_from_slice(&[0xE0, 0x10]); // JMP 010h
    mask
}

/// The masks that Run is measured on.
pub fn measured() -> [(&'static str, Mask); 5] {
    [
        ("arithmetic", arithmetic()),
        ("memory copy", copy()),
        ("timer interrupts", timer()),
        ("table reads", tables()),
        ("random loop", scattered()),
    ]
}

/// A mask of random bytes.
pub fn random_bytes(prng: &mut Prng) -> Mask {
    std::array::from_fn(|_| prng.byte())
}

/// Random instructions, one after the other. `tame` leaves out what soon ends
/// a run: HALT, CALL, RET and RETI.
pub fn random_instructions(prng: &mut Prng, tame: bool) -> Mask {
    let mut mask = [NOP; MASK];
    let mut at = 0;
    while at < MASK {
        let (length, first, second) = instruction(prng, tame);
        if at + length > MASK {
            continue;
        }
        mask[at] = first;
        if length == 2 {
            mask[at + 1] = second;
        }
        at += length;
    }
    mask
}

fn instruction(prng: &mut Prng, tame: bool) -> (usize, u8, u8) {
    loop {
        let first = prng.byte();
        let second = match first {
            0x37 => 0x3E,
            0x40..=0x46 | 0x50..=0x6F => prng.byte() & 15,
            _ => prng.byte(),
        };
        let ends = matches!(first, 0x2E | 0x2F | 0x37 | 0xF0..=0xFF);
        if let Some(instruction) = decode(first, second).filter(|_| !(tame && ends)) {
            return (instruction.length as usize, first, second);
        }
    }
}

/// NOPs with a few random instructions among them.
pub fn sparse(prng: &mut Prng) -> Mask {
    let mut mask = [NOP; MASK];
    for _ in 0..prng.below(60) {
        let (length, first, second) = instruction(prng, false);
        let at = prng.below(MASK as u64) as usize;
        mask[at] = first;
        if length == 2 {
            mask[(at + 1) % MASK] = second;
        }
    }
    mask
}

/// A program that passes through all levels: random code that calls
/// subroutines, both handlers, the timer and interrupts on.
pub fn lively(prng: &mut Prng) -> Mask {
    let mut mask = random_instructions(prng, true);
    let mut put = |at: usize, code: &[u8]| mask[at..at + code.len()].copy_from_slice(code);
    put(0x000, &[0xE0, 0x10]); // JMP 010h
    put(0x004, &[0x18, 0x2F]); // INC R4; RETI
    put(0x008, &[0x0C, 0x2E]); // INC [R1R0]; RET
    put(0x010, &[0x47, prng.byte(), 0x38, 0x2C]); // TIMER XXh; TIMER ON; EI
    for subroutine in 0..16 {
        put(
            0xE00 + 16 * subroutine + 14,
            &[NOP, 0x2E + (prng.byte() & 1)],
        ); // RET or RETI
    }
    for _ in 0..200 {
        let at = 0x20 + prng.below(0xD00) as usize;
        put(at, &[0xFE, prng.byte() & 0xF0]); // CALL E?0h
    }
    for _ in 0..prng.below(4) {
        let at = 0x20 + prng.below(0xD00) as usize;
        put(at, &[0x37, 0x3E]); // HALT
    }
    mask
}

/// A program that lives in the gap: its pairs are set to 7Fh-E0h, and half of its code
/// goes through them.
pub fn straying(prng: &mut Prng) -> Mask {
    let mut mask = lively(prng);
    let mut at = 0x20;
    while at < 0xD00 {
        let place = 0x7F + prng.byte() % 0x62;
        let (length, first, second) = match prng.below(16) {
            0 => (2, 0x50 | place & 15, place >> 4), // MOV R1R0
            1 => (2, 0x60 | place & 15, place >> 4), // MOV R3R2
            2..=8 => (1, through_a_pair(prng), NOP),
            _ => instruction(prng, true),
        };
        mask[at] = first;
        if length == 2 {
            mask[at + 1] = second;
        }
        at += length;
    }
    mask
}

/// A loop whose pairs both stay in the gap, with handlers that go there too.
pub fn round_in_the_gap(prng: &mut Prng) -> Mask {
    let mut place = || 0x80 + prng.byte() % 0x60;
    let (one, other) = (place(), place());
    let mut code = vec![0x50 | one & 15, one >> 4, 0x60 | other & 15, other >> 4]; // MOV R1R0; MOV R3R2
    code.push(0x2C + (prng.byte() & 1)); // EI or DI
    code.extend((0..1 + prng.below(40)).map(|_| through_a_pair(prng)));
    code.extend([0xE0, 0x10]); // JMP 010h
    with(&[
        (0x00, &[0xE0, 0x10]),                 // JMP 010h
        (0x04, &[through_a_pair(prng), 0x2F]), // and RETI
        (0x08, &[through_a_pair(prng), 0x2F]),
        (0x10, &code),
    ])
}

/// A code that reads or writes data memory.
fn through_a_pair(prng: &mut Prng) -> u8 {
    match prng.byte() % 22 {
        n @ 0..=11 => 0x04 + n,
        n @ 12..=17 => 0x1A + n - 12,
        n => 0x4C + n - 18,
    }
}

/// Reaches every address in every level, most of them in more than one way.
pub fn worst() -> Mask {
    let mut mask: Mask = std::array::from_fn(|at| 0xA0 | at as u8 & 1); // JNZ R0,0A1h or 1A0h
    mask[..0xA0].fill(NOP);
    mask[..3].copy_from_slice(&[0x2C, 0xF0, 0x03]); // EI; CALL 003h
    mask[0xFFE..].copy_from_slice(&[0xA0, 0x02]); // JNZ R0,002h: the moved PC is 0
    mask
}

/// Fails in level 1 alone, after every address in level 0: CALL 000h at FFDh.
pub fn long_way() -> Mask {
    with(&[(0xFFD, &[0xF0, 0x00])])
}

/// Waits with interrupts on: RETI at 4, and from 8 on NOPs up to a RETI at the
/// last address.
pub fn straight() -> Mask {
    with(&[(0, &[0x2C, 0xE0, 0x01]), (4, &[0x2F]), (0xFFF, &[0x2F])])
}

/// CALL 003h and JMP 000h, whose second byte is RR A; NOPs up to a RET at the
/// last address. The check meets no address twice, and the bound walks as many.
pub fn long_subroutine() -> Mask {
    with(&[(0, &[0xF0, 0x03, 0xE0, 0x00]), (0xFFF, &[0x2E])])
}

/// As `straight`, but sixty branches may each skip a NOP, and then comes a RETI:
/// too many chains to try each.
pub fn diamonds() -> Mask {
    let mut mask = straight();
    for at in (8..188).step_by(3) {
        mask[at..at + 2].copy_from_slice(&[0xC0, at as u8 + 3]); // JC
    }
    mask[188] = 0x2F;
    mask
}

/// As `straight`, but with branches all the way down, each to the next but one.
pub fn ladder() -> Mask {
    let mut mask = straight();
    for at in (8..0xFFA).step_by(2) {
        let target = at + 4;
        // No branch goes to the other half but by its moved PC.
        if at != 0x7FC {
            mask[at..at + 2].copy_from_slice(&[0xC0 | (target >> 8) as u8 & 7, target as u8]);
        }
    }
    mask
}

/// EI, then a branch at nearly every address, in main and in a handler: forward,
/// back, and round.
pub fn tangle() -> Mask {
    let mut mask = worst();
    mask[1..3].fill(NOP);
    mask[0xFFE..].copy_from_slice(&[0xA0, 0xA1]);
    mask
}

/// Of two ways to the same place now the branch is the shorter, now to go on, and
/// the longer one is found last: none but a search by distance finds all four.
pub fn detours() -> Mask {
    with(&[
        (0x000, &[0xC2, 0x00]),             // JC 200h, else all the NOPs up to it
        (0x200, &[0xE4, 0x00]),             // JMP 400h
        (0x400, &[0xC5, 0x00, 0xE6, 0x00]), // JC 500h, and NOPs from there; JMP 600h
        (0x600, &[0xC7, 0x00, 0xE7, 0x00]), // JC 700h; JMP 700h
        (0x700, &[0xC7, 0x80, 0x35]),       // JC 780h; nothing that can be read
        (0x780, &[0xE7, 0x02]),             // JMP 702h
    ])
}

/// Hand-made masks and ones with an odd end, for the comparison.
pub fn special(n: u64) -> Mask {
    match n {
        0 => arithmetic(),
        1 => copy(),
        2 => timer(),
        3 => tables(),
        4 => worst(),
        5 => [NOP; MASK],
        6 => [0x35; MASK],
        7 => [0xFF; MASK],
        8 => [0x2C; MASK],
        9 => with(&[(0, &[0x40, 0x15])]),
        10 => with(&[(0, &[0xF0, 0x10])]),
        11 => with(&[(0, &[0x2F])]),
        12 => with(&[(0, &[0x3E]), (4095, &[0x37])]), // HALT over the end
        13 => with(&[(0, &[0x05]), (4095, &[0x52])]), // MOV R1R0 over the end
        14 => with(&[(0, &[0xE7, 0xFE]), (0x7FE, &[0xB0, 0x10])]),
        15 => with(&[
            (0, &[0x2C, 0xF1, 0x00]),
            (0x100, &[0x2E]),
            (4, &[0x2F]),
            (8, &[0x2F]),
        ]),
        16 => long_way(),
        17 => detours(),
        _ => [0xA1; MASK],
    }
}

pub const SPECIAL: u64 = 19;

#[cfg(test)]
mod tests {
    use super::*;
    use crate::plain::{check, way};

    #[test]
    fn worst_reaches_all_pairs() {
        let mut marks = [0; MASK];
        check(&worst(), &mut marks).unwrap();
        assert!(marks.iter().all(|&mark| mark == 7));
    }

    #[test]
    fn ways_are_as_long_as_they_should_be() {
        assert_eq!(way(&long_way()), Ok(2 * 0xFFE));
        assert_eq!(way(&detours()), Ok(7));
    }

    #[test]
    fn masks_for_speed_pass() {
        let bounded = [
            straight(),
            long_subroutine(),
            diamonds(),
            ladder(),
            tangle(),
        ];
        for mask in [arithmetic(), copy(), timer(), tables()]
            .iter()
            .chain(&bounded)
        {
            assert_eq!(check(mask, &mut [0; MASK]), Ok(None));
        }
    }
}
