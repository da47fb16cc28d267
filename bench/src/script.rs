//! Random scripts, valid and damaged.

use crate::plain::{INT, PINS, POWER_ON, RES, RUN, SCRIPT, TMCLK};
use crate::prng::Prng;

pub const RATES: [u8; 14] = [0, 1, 2, 3, 4, 5, 7, 8, 9, 10, 11, 12, 13, 255];

pub fn record(kind: u16, payload: &[u8]) -> Vec<u8> {
    let mut bytes = (payload.len() as u16).to_le_bytes().to_vec();
    bytes.extend(kind.to_le_bytes());
    bytes.extend(payload);
    bytes
}

pub fn power_on(prng: &mut Prng) -> Vec<u8> {
    let rate = RATES[prng.below(14) as usize];
    let payload = [
        rate,
        3 + prng.byte() % 2,
        prng.byte() & 15,
        prng.byte() & 15,
        prng.byte() & 15,
        prng.byte() & 15,
    ];
    record(POWER_ON, &payload)
}

/// A count of rising edges; half of them under 256.
pub fn pulses(prng: &mut Prng) -> u16 {
    let bound = [256, 65536][prng.below(2) as usize];
    prng.below(bound) as u16
}

/// A record other than power-on; Run takes at most `steps`.
fn event(prng: &mut Prng, steps: u16) -> Vec<u8> {
    match prng.below(8) {
        0..=2 => record(RUN, &(prng.below(steps as u64 + 1) as u16).to_le_bytes()),
        3 | 4 => record(
            PINS,
            &[prng.byte() & 15, prng.byte() & 15, prng.byte() & 15],
        ),
        5 => record(INT, &[prng.byte() & 1]),
        6 => record(TMCLK, &pulses(prng).to_le_bytes()),
        _ => record(RES, &[]),
    }
}

/// A valid script of so many records, as a list of them.
pub fn valid(prng: &mut Prng, records: u64, steps: u16) -> Vec<Vec<u8>> {
    let mut script = vec![power_on(prng)];
    for _ in 1..records {
        let next = if prng.below(24) == 0 {
            power_on(prng)
        } else {
            event(prng, steps)
        };
        script.push(next);
    }
    script
}

/// A valid script of exactly so many bytes (14 or more), as a list of records.
pub fn of_length(prng: &mut Prng, length: usize, steps: u16) -> Vec<Vec<u8>> {
    let mut script = vec![power_on(prng)];
    let mut left = length - script[0].len();
    while left > 0 {
        let next = event(prng, steps);
        // No record has under 4 bytes, so a shorter rest could not be filled.
        if next.len() == left || next.len() + 4 <= left {
            left -= next.len();
            script.push(next);
        }
    }
    script
}

/// Breaks a script in one of many ways; some leave it valid.
pub fn damage(prng: &mut Prng, script: &mut Vec<Vec<u8>>) {
    let at = prng.below(script.len() as u64) as usize;
    let record = &mut script[at];
    if record.len() < 4 {
        return;
    }
    let bad = [16, 17, 128, 255][prng.below(4) as usize];
    match prng.below(14) {
        0 | 1 => {
            let bit = prng.below(8 * record.len() as u64);
            record[bit as usize / 8] ^= 1 << (bit % 8);
        }
        2 => record.truncate(prng.below(record.len() as u64) as usize),
        3 => record[0] = prng.byte(),
        4 => record[1] = prng.byte(),
        5 => record[2] = prng.below(10) as u8,
        6 => record[3] = prng.byte(),
        7 => *record = self::record(prng.below(12) as u16, &vec![1; prng.below(8) as usize]),
        8 => {
            script.remove(0);
            if script.is_empty() {
                script.push(Vec::new());
            }
        }
        9 => {
            *record = self::record(PINS, &{
                let mut pins = [1; 3];
                pins[prng.below(3) as usize] = bad;
                pins
            })
        }
        10 => *record = self::record(INT, &[[2, 3, 128, 255][prng.below(4) as usize]]),
        11 => {
            let mut broken = power_on(prng);
            broken[9] = bad;
            *record = broken;
        }
        12 => {
            let mut broken = power_on(prng);
            match prng.below(3) {
                0 => broken[4] = [6, 14, 15, 100, 254][prng.below(5) as usize],
                1 => broken[5] = [0, 1, 2, 5, 255][prng.below(5) as usize],
                _ => broken[6 + prng.below(3) as usize] = bad,
            }
            *record = broken;
        }
        _ => record.extend(std::iter::repeat_n(prng.byte(), 1 + prng.below(4) as usize)),
    }
}

/// A valid script of the most bytes, or of one more.
pub fn longest(prng: &mut Prng, one_more: bool) -> Vec<Vec<u8>> {
    of_length(prng, SCRIPT + one_more as usize, 20)
}
