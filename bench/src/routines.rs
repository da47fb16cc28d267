//! Masks that pass: a main program that calls, subroutines and handlers that share
//! code, with loops and HALT by chance.

use crate::plain::{check, decode, form, Mask, Pair, MASK};
use crate::prng::Prng;

const NOP: u8 = 0x3E;
const EI: u8 = 0x2C;
const JMP: u8 = 0xE0;
const CALL: u8 = 0xF0;
const HALT: [u8; 2] = [0x37, 0x3E];

/// How a routine is made: of so many items, of which so many in 1,000 branch;
/// of the branches so many go back, of the others so many halt.
#[derive(Clone, Copy)]
struct Shape {
    items: usize,
    branch: u64,
    back: u64,
    halt: u64,
    /// Every branch is decided by the pins, after an IN before it.
    decided: bool,
}

fn chance(prng: &mut Prng, in_1000: u64) -> bool {
    prng.below(1000) < in_1000
}

fn pick<T: Copy>(prng: &mut Prng, from: &[T]) -> T {
    from[prng.below(from.len() as u64) as usize]
}

fn go(first: u8, target: u16) -> [u8; 2] {
    [first | (target >> 8) as u8, target as u8]
}

/// RET or RETI.
fn leave(prng: &mut Prng) -> u8 {
    0x2E | prng.byte() & 1
}

/// An instruction that goes on to the next one.
fn onward(prng: &mut Prng) -> Vec<u8> {
    loop {
        let (first, second) = match prng.below(6) {
            0 => (0x4C + prng.byte() % 4, 0), // READ: one byte, two cycles
            _ => (prng.byte(), prng.byte() & 15),
        };
        let Some(code) = decode(first, second) else {
            continue;
        };
        if !matches!(
            code.form,
            form::JMP | form::BRANCH | form::CALL | form::RET | form::RETI | form::HALT
        ) {
            return [first, second][..code.length as usize].to_vec();
        }
    }
}

/// What stands before a branch of this number, so that a pin or TMCLK decides it.
fn decides(prng: &mut Prng, branch: u8) -> Vec<u8> {
    let port = 0x32 + prng.byte() % 3;
    match branch {
        4 => vec![port, 0x20],     // IN A; MOV R0,A
        5 => vec![port, 0x22],     // MOV R1,A
        8 | 9 => vec![port, 0x00], // RR A
        10 => vec![0x38],          // TIMER ON
        11 => vec![port, 0x28],    // MOV R4,A
        _ => vec![port],
    }
}

struct Builder {
    mask: Mask,
    /// Where the next routine goes.
    at: usize,
    entries: Vec<u16>,
}

impl Builder {
    fn put(&mut self, at: usize, code: &[u8]) -> usize {
        for (k, byte) in code.iter().enumerate() {
            self.mask[(at + k) % MASK] = *byte;
        }
        at + code.len()
    }

    /// Items one after the other, then a return; notes where they start.
    fn routine(&mut self, prng: &mut Prng, shape: Shape) {
        // What each item starts with, and whether it ends with a branch.
        let mut items = Vec::new();
        let mut at = self.at;
        for _ in 0..shape.items {
            let branch = chance(prng, shape.branch).then(|| prng.byte() % 12);
            let code = match branch {
                Some(branch) if shape.decided => decides(prng, branch),
                Some(_) => Vec::new(),
                None if chance(prng, shape.halt) => HALT.to_vec(),
                None => onward(prng),
            };
            let start = at;
            at += code.len() + 2 * branch.is_some() as usize;
            items.push((start, code, branch));
        }
        if at + 1 >= MASK {
            return;
        }
        let starts: Vec<usize> = items.iter().map(|item| item.0).chain([at]).collect();
        for (k, (start, code, branch)) in items.into_iter().enumerate() {
            let at = self.put(start, &code);
            let Some(branch) = branch else { continue };
            let far = pick(prng, &[1, 2, 3, 4, 12, shape.items as u64]);
            let mut to = starts[(k + 1 + prng.below(far) as usize).min(shape.items)] as u16;
            if chance(prng, shape.back) {
                to = starts[k - prng.below(9.min(k as u64 + 1)) as usize] as u16;
            } else if !shape.decided && !self.entries.is_empty() && chance(prng, 50) {
                to = pick(prng, &self.entries);
            }
            // Bit 11 keeps some branches from their target.
            let fits = (at + 2) as u16 & 0x800 == to & 0x800;
            let code = match prng.below(12) {
                0 if !shape.decided => go(JMP, to),
                _ if fits => go(0x80 | branch << 3, to & 0x7FF),
                _ => [0x47, prng.byte()],
            };
            self.put(at, &code);
        }
        self.entries.push(self.at as u16);
        if !shape.decided {
            self.entries.push(pick(prng, &starts) as u16);
        }
        self.at = self.put(at, &[leave(prng)]);
    }

    /// So many branches with two sides each.
    fn diamonds(&mut self, prng: &mut Prng, depth: usize) {
        self.entries.push(self.at as u16);
        for _ in 0..depth {
            let [one, other] = [0, 1].map(|_| {
                (0..prng.below(3))
                    .flat_map(|_| onward(prng))
                    .collect::<Vec<_>>()
            });
            let at = self.at + 2;
            let middle = at + one.len() + 2;
            let end = middle + other.len();
            let fits = at as u16 & 0x800 == middle as u16 & 0x800;
            let branch = if fits {
                go(0x80 | (prng.byte() % 12) << 3, middle as u16 & 0x7FF)
            } else {
                [0x47, 0]
            };
            self.put(self.at, &branch);
            self.put(at, &one);
            self.put(middle - 2, &go(JMP, end as u16));
            self.at = self.put(middle, &other);
        }
        self.at = self.put(self.at, &[leave(prng)]);
    }

    fn vectors(&mut self, prng: &mut Prng) {
        for vector in [4, 8] {
            let code = match prng.below(8) {
                0 => vec![leave(prng)],
                1 => vec![EI, leave(prng)],
                2 => vec![NOP; 4], // from the one at 4 into the one at 8
                _ => go(JMP, pick(prng, &self.entries)).to_vec(),
            };
            self.put(vector, &code);
        }
        self.put(0x0C, &[leave(prng)]);
    }

    /// EI or not, and CALLs, some of a vector and some twice; then again.
    fn main(&mut self, prng: &mut Prng) {
        let main = self.at;
        let mut at = main;
        if prng.below(4) != 0 {
            at = self.put(at, &[EI]);
        }
        for _ in 0..prng.below(7) {
            let to = match prng.below(12) {
                0 => pick(prng, &[4, 8]),
                _ => pick(prng, &self.entries),
            };
            at = self.put(at, &go(CALL, to));
        }
        if prng.below(6) == 0 {
            at = self.put(at, &HALT);
        }
        self.at = self.put(at, &go(JMP, main as u16));
        self.put(0, &go(JMP, main as u16));
    }
}

/// A mask of what `fill` makes, with vectors and a main program; it passes.
fn passing(prng: &mut Prng, fill: impl Fn(&mut Prng, &mut Builder)) -> Mask {
    loop {
        let byte = prng.byte();
        let filler = pick(prng, &[0x35, NOP, byte]);
        let mut builder = Builder {
            mask: [filler; MASK],
            at: 0x10,
            entries: Vec::new(),
        };
        fill(prng, &mut builder);
        if builder.entries.is_empty() || builder.at > MASK - 32 {
            continue;
        }
        builder.vectors(prng);
        builder.main(prng);
        if check(&builder.mask, &mut [0; MASK]) == Ok(None) {
            return builder.mask;
        }
    }
}

/// A few short routines, at any place.
pub fn small(prng: &mut Prng) -> Mask {
    passing(prng, |prng, builder| {
        let anywhere = 0x10 + prng.below(0xE00) as usize;
        builder.at = pick(prng, &[0x10, 0x7D0, 0x800, anywhere]);
        for _ in 0..1 + prng.below(4) {
            let shape = Shape {
                items: pick(prng, &[1, 2, 4, 8, 16]),
                branch: pick(prng, &[0, 100, 300, 600]),
                back: pick(prng, &[0, 0, 100, 300]),
                halt: pick(prng, &[0, 0, 0, 100]),
                decided: false,
            };
            builder.routine(prng, shape);
        }
    })
}

/// Two to the 60 chains and more.
pub fn deep(prng: &mut Prng) -> Mask {
    passing(prng, |prng, builder| {
        builder.at = pick(prng, &[0x10, 0x700, 0x800]);
        let depth = 60 + prng.below(30) as usize;
        builder.diamonds(prng, depth);
        let depth = prng.below(10) as usize;
        builder.diamonds(prng, depth);
    })
}

/// Through nearly every address, with few branches or none.
pub fn long(prng: &mut Prng) -> Mask {
    passing(prng, |prng, builder| {
        let shape = Shape {
            items: 2600 + prng.below(300) as usize,
            branch: pick(prng, &[0, 0, 5, 100]),
            back: pick(prng, &[0, 0, 0, 5]),
            halt: 0,
            decided: false,
        };
        builder.routine(prng, shape);
    })
}

/// READ from 10h on: the most cycles that addresses can spend.
pub fn reads(prng: &mut Prng) -> Mask {
    passing(prng, |prng, builder| {
        let count = 0xF00 + prng.below(0xB0) as usize;
        builder.entries.push(builder.at as u16);
        let row = vec![0x4C + prng.byte() % 4; count];
        builder.at = builder.put(builder.at, &row);
        builder.at = builder.put(builder.at, &[leave(prng)]);
    })
}

/// Bytes by chance, any of which may start an instruction; many return.
pub fn scattered(prng: &mut Prng) -> Mask {
    loop {
        let returns = pick(prng, &[50, 100, 200]);
        let mut mask: Mask = std::array::from_fn(|_| {
            if chance(prng, returns) {
                return leave(prng);
            }
            loop {
                let first = prng.byte();
                let jumps = first >= 0x80;
                let reads = [0, 15, 16, 255]
                    .iter()
                    .all(|&second| decode(first, second).is_some());
                if reads && first < CALL && !(jumps && prng.below(4) != 0) {
                    return first;
                }
            }
        });
        let main = 0x10 + prng.below(0xFD0) as u16;
        let mut code = vec![EI];
        for _ in 0..prng.below(4) {
            code.extend(go(CALL, prng.below(MASK as u64) as u16));
        }
        code.extend(go(JMP, main));
        mask[main as usize..main as usize + code.len()].copy_from_slice(&code);
        mask[..2].copy_from_slice(&go(JMP, main));
        if check(&mask, &mut [0; MASK]) == Ok(None) {
            return mask;
        }
    }
}

/// No loop and no HALT above main, and every branch decided by pins or TMCLK:
/// from the start of each item a run spends the bound.
pub fn decided(prng: &mut Prng) -> Mask {
    passing(prng, |prng, builder| {
        builder.at = pick(prng, &[0x10, 0x7D0, 0x800]);
        for _ in 0..1 + prng.below(3) {
            let shape = Shape {
                items: pick(prng, &[3, 10, 40]),
                branch: 500,
                back: 0,
                halt: 0,
                decided: true,
            };
            builder.routine(prng, shape);
        }
    })
}

/// The pairs where a routine of a mask starts that are reached: the vectors, and
/// the targets of CALLs.
pub fn entries(mask: &Mask) -> Vec<Pair> {
    let mut marks = [0; MASK];
    let _ = check(mask, &mut marks);
    let calls = (0..MASK).filter(|&at| marks[at] & 1 == 1 && mask[at] >= CALL);
    let targets = calls.map(|at| {
        (
            ((mask[at] & 15) as u16) << 8 | mask[(at + 1) % MASK] as u16,
            1,
        )
    });
    let all = [(4, 2), (8, 2)].into_iter().chain(targets);
    all.filter(|&(address, level)| marks[address as usize] >> level & 1 == 1)
        .collect()
}
