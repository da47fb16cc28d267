//! How fast the library is beside the plain engine and assembler: the same process,
//! the same input, in turns, the least time of each.

use crate::library::{self, packed, to_plain};
use crate::plain::{self, Mask, IMAGE, MASK, REPORT};
use crate::prng::Prng;
use crate::script::record;
use crate::{masks, plain_asm, texts};
use ht1130::{Bound, Bound::Cycles, Refusal};
use std::hint::black_box;
use std::time::{Duration, Instant};

/// Many short turns: others use the machine too.
const TURNS: usize = 41;
/// For the texts that should take longest.
const FEW_TURNS: usize = 5;

const OPTIONS: plain::Options = plain::Options {
    rate: 2,
    commons: 4,
    wake_pm: 15,
    wake_ps: 15,
    wake_pp: 15,
};

pub fn run() {
    println!("speed: least of {TURNS} turns; machines powered on and buffers cleared before each run, untimed");
    heading("plain ns", "library ns");
    for (name, mask) in &masks::measured() {
        run_row(&format!("Run, {name}, a step"), mask);
    }
    let mut prng = Prng::new(1130);
    let checked = [
        ("random bytes", far_reaching(&mut prng)),
        (
            "random instructions",
            masks::random_instructions(&mut prng, false),
        ),
        ("worst mask", masks::worst()),
    ];
    for (name, mask) in &checked {
        check_row(name, mask);
    }
    script_row();
    event_row("apply RES, a call", |n| (plain::RES, [n as u8, 0, 0]));
    event_row("apply pins, a call", |n| {
        (plain::PINS, [n as u8 & 15, (n >> 4) as u8 & 15, 15])
    });
    event_row("apply Run of 0 steps, a call", |_| (plain::RUN, [0; 3]));
    println!(
        "aims: Run and the check of random bytes at most 1.5 times plain, a script's record 4"
    );
    heading("check ns", "way ns");
    for (name, mask) in &checked {
        way_row(name, mask);
    }
    way_row("long way", &masks::long_way());
    println!("aim: the way at most 2.5 times the check");
    heading("check ns", "bound ns");
    bound_row("timer interrupts", &masks::timer(), (4, 2), Ok(Cycles(6)));
    bound_row(
        "straight code",
        &masks::straight(),
        (8, 2),
        Ok(Cycles(4088)),
    );
    bound_row(
        "long subroutine",
        &masks::long_subroutine(),
        (3, 1),
        Ok(Cycles(4093)),
    );
    bound_row("diamonds", &masks::diamonds(), (8, 2), Ok(Cycles(181)));
    bound_row("ladder", &masks::ladder(), (8, 2), Ok(Cycles(4088)));
    bound_row("tangle", &masks::tangle(), (8, 2), Ok(Bound::NoBound));
    for (name, mask) in &checked {
        bound_row(name, mask, (8, 2), Err(Refusal::MaskFails));
    }
    println!("aim: the bound of a pair at most twice the check");
    heading("plain ns", "library ns");
    let name = format!(
        "assemble, ordinary code, a line of {}",
        texts::ORDINARY_LINES
    );
    text_row(
        &name,
        TURNS,
        texts::ORDINARY_LINES as u64,
        &texts::ordinary(),
    );
    println!("aim: at most 20 times plain");
    heading("plain ms", "library ms");
    for (name, text) in texts::worst() {
        text_row(name, FEW_TURNS, 1_000_000, &text);
    }
    println!("aim: at most 2,000 ms each; the least of {FEW_TURNS} turns");
}

/// Runs of 10,000 steps of one engine on one mask, for a counter of instructions. False for
/// names that there are not.
pub fn count(engine: &str, name: &str, runs: u32) -> bool {
    const STEPS: u16 = 10_000;
    let masks = masks::measured();
    let Some((_, mask)) = masks.iter().find(|(known, _)| *known == name) else {
        return false;
    };
    if !["plain", "library"].contains(&engine) {
        return false;
    }
    let (mut ours, mut theirs) = powered();
    for _ in 0..runs {
        match engine {
            "plain" => ours
                .apply(plain::RUN, STEPS, 0, 0, 0, black_box(mask))
                .expect("a valid machine"),
            _ => ht1130::apply_kind(&mut theirs, plain::RUN, STEPS, 0, 0, 0, black_box(mask))
                .expect("a valid machine"),
        }
    }
    let ended = match engine {
        "plain" => ours.recorded(),
        _ => to_plain(&theirs),
    };
    println!("{} cycles", ended.cycles);
    true
}

fn heading(one: &str, other: &str) {
    println!("{:<44}{one:>12}{other:>12}{:>8}", "", "ratio");
}

/// Random bytes; most such masks reach a few pairs only and would measure the
/// call rather than the walk.
fn far_reaching(prng: &mut Prng) -> Mask {
    loop {
        let mask = masks::random_bytes(prng);
        if pairs(&mask) > 2000 {
            return mask;
        }
    }
}

fn pairs(mask: &Mask) -> u64 {
    let mut marks = [0; MASK];
    plain::check(mask, &mut marks).expect("buffers of the right length");
    marks.iter().map(|mark| mark.count_ones() as u64).sum()
}

fn row(name: &str, units: u64, one: impl FnMut() -> Duration, other: impl FnMut() -> Duration) {
    row_of(TURNS, name, units, one, other);
}

fn row_of(
    turns: usize,
    name: &str,
    units: u64,
    mut one: impl FnMut() -> Duration,
    mut other: impl FnMut() -> Duration,
) {
    let mut least = [Duration::MAX; 2];
    for _ in 0..turns {
        least[0] = least[0].min(one());
        least[1] = least[1].min(other());
    }
    let [one, other] = least.map(|time| time.as_nanos() as f64 / units as f64);
    println!("{name:<44}{one:>12.3}{other:>12.3}{:>8.2}", other / one);
}

fn timed(work: impl FnOnce()) -> Duration {
    let start = Instant::now();
    work();
    start.elapsed()
}

fn powered() -> (plain::Machine, ht1130::Machine) {
    let mut plain = plain::Machine::zeroed();
    let mut library = ht1130::Machine::zeroed();
    plain
        .power_on(OPTIONS, &[5; IMAGE])
        .expect("options in range");
    ht1130::power_on(&mut library, library::options(&OPTIONS), &[5; IMAGE])
        .expect("options in range");
    (plain, library)
}

fn run_row(name: &str, mask: &Mask) {
    const RUNS: u64 = 10;
    const STEPS: u16 = 65535;
    let (mut ours, mut theirs) = powered();
    row(
        name,
        RUNS * STEPS as u64,
        || {
            ours = powered().0;
            timed(|| {
                for _ in 0..RUNS {
                    ours.apply(plain::RUN, STEPS, 0, 0, 0, black_box(mask))
                        .expect("a valid machine");
                }
            })
        },
        || {
            theirs = powered().1;
            timed(|| {
                for _ in 0..RUNS {
                    ht1130::apply_kind(&mut theirs, plain::RUN, STEPS, 0, 0, 0, black_box(mask))
                        .expect("a valid machine");
                }
            })
        },
    );
    assert_eq!(
        to_plain(&theirs),
        ours.recorded(),
        "{name}: the machines differ"
    );
    assert_eq!(ours.fault, 0, "{name}: the mask runs on");
}

fn check_row(name: &str, mask: &Mask) {
    const CHECKS: u32 = 10;
    let (mut ours, mut theirs) = ([0; MASK], [0; MASK]);
    let (mut our_verdict, mut their_verdict) = (Ok(None), 0);
    let pairs = pairs(mask);
    // Clearing is untimed, so each check is timed alone.
    row(
        &format!("check, {name}, a pair of {pairs}"),
        pairs * CHECKS as u64,
        || {
            (0..CHECKS)
                .map(|_| {
                    ours.fill(0);
                    timed(|| our_verdict = plain::check(black_box(mask), black_box(&mut ours)))
                })
                .sum()
        },
        || {
            (0..CHECKS)
                .map(|_| {
                    theirs.fill(0);
                    timed(|| {
                        their_verdict = library::check(black_box(mask), black_box(&mut theirs))
                    })
                })
                .sum()
        },
    );
    assert_eq!(
        their_verdict,
        packed::verdict(&our_verdict),
        "{name}: the verdicts differ"
    );
    assert_eq!(theirs, ours, "{name}: the marks differ");
}

/// Both calls are the library's: the way walks as the check does, then goes back.
fn way_row(name: &str, mask: &Mask) {
    const CALLS: u32 = 10;
    let (mut marks, mut list) = ([0; MASK], [0; ht1130::WAY]);
    let mut answer = 0;
    let pairs = pairs(mask);
    row(
        &format!("way, {name}, a pair of {pairs}"),
        pairs * CALLS as u64,
        || {
            (0..CALLS)
                .map(|_| {
                    marks.fill(0);
                    timed(|| {
                        library::check(black_box(mask), black_box(&mut marks));
                    })
                })
                .sum()
        },
        || {
            (0..CALLS)
                .map(|_| {
                    list.fill(0);
                    timed(|| answer = library::way(black_box(mask), black_box(&mut list)))
                })
                .sum()
        },
    );
    assert_eq!(
        answer,
        packed::counted(&plain::way(mask)),
        "{name}: the counts differ"
    );
    assert_eq!(answer as u8, 0, "{name}: the mask has a way");
}

/// Both calls are the library's: the bound checks the mask, then walks from its pair.
fn bound_row(
    name: &str,
    mask: &Mask,
    (address, level): (u16, u8),
    expected: Result<Bound, Refusal>,
) {
    const CALLS: u32 = 10;
    let mut marks = [0; MASK];
    let mut answer = Ok(Bound::NotReached);
    let pairs = pairs(mask);
    row(
        &format!("bound, {name}, a pair of {pairs}"),
        pairs * CALLS as u64,
        || {
            (0..CALLS)
                .map(|_| {
                    marks.fill(0);
                    timed(|| {
                        library::check(black_box(mask), black_box(&mut marks));
                    })
                })
                .sum()
        },
        || {
            (0..CALLS)
                .map(|_| timed(|| answer = ht1130::bound(black_box(mask), address, level)))
                .sum()
        },
    );
    assert_eq!(answer, expected, "{name}");
}

fn script_row() {
    let mask = masks::timer();
    let mut script = record(plain::POWER_ON, &[2, 4, 15, 15, 15, 5]);
    let mut records = 1;
    while script.len() + 24 <= plain::SCRIPT {
        script.extend(record(plain::RUN, &[1, 0]));
        script.extend(record(plain::PINS, &[records as u8 & 15, 3, 15]));
        script.extend(record(plain::INT, &[records as u8 & 1]));
        script.extend(record(plain::RUN, &[2, 0]));
        records += 4;
    }
    let (mut ours, mut theirs) = (vec![0; REPORT * records], vec![0; REPORT * records]);
    row(
        &format!("script of {records} short, a record"),
        records as u64,
        || {
            ours.fill(0);
            timed(|| {
                plain::run_script(black_box(&mask), black_box(&script), &mut ours)
                    .expect("a valid script");
            })
        },
        || {
            theirs.fill(0);
            timed(|| {
                ht1130::run_script(black_box(&mask), black_box(&script), &mut theirs)
                    .expect("a valid script")
            })
        },
    );
    assert_eq!(theirs, ours, "the reports differ");
}

fn event_row(name: &str, event: fn(u32) -> (u16, [u8; 3])) {
    const CALLS: u32 = 20_000;
    let mask = masks::arithmetic();
    let (mut ours, mut theirs) = powered();
    row(
        name,
        CALLS as u64,
        || {
            ours = powered().0;
            timed(|| {
                for n in 0..CALLS {
                    let (kind, [a, b, c]) = event(n);
                    ours.apply(black_box(kind), 0, a, b, c, &mask)
                        .expect("a valid machine");
                }
            })
        },
        || {
            theirs = powered().1;
            timed(|| {
                for n in 0..CALLS {
                    let (kind, [a, b, c]) = event(n);
                    ht1130::apply_kind(&mut theirs, black_box(kind), 0, a, b, c, &mask)
                        .expect("a valid machine");
                }
            })
        },
    );
    assert_eq!(
        to_plain(&theirs),
        ours.recorded(),
        "{name}: the machines differ"
    );
}

/// Units of so many to a text: its lines, or 1,000,000 for milliseconds.
fn text_row(name: &str, turns: usize, units: u64, text: &[u8]) {
    let (mut ours, mut theirs) = ([0; MASK], [0; MASK]);
    let (mut our_answer, mut their_answer) = (Ok(()), 0);
    row_of(
        turns,
        name,
        units,
        || {
            ours.fill(0);
            timed(|| our_answer = plain_asm::assemble(black_box(text), black_box(&mut ours)))
        },
        || {
            theirs.fill(0);
            timed(|| their_answer = library::assemble(black_box(text), black_box(&mut theirs)))
        },
    );
    assert_eq!(
        their_answer,
        packed::text(&our_answer),
        "{name}: the answers differ"
    );
    assert_eq!(theirs, ours, "{name}: the masks differ");
}
