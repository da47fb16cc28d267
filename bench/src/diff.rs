//! Differential tests: the library against the plain engine, assembler and glass,
//! every field and every byte.

use crate::library::{self, number, packed, to_plain};
use crate::plain::{self, Bound, Bounds, Mask, Pair, IMAGE, MASK, REPORT};
use crate::plain_glass::{self, Code, Reading, BLANK, DIGITS, PICTURE, POINT};
use crate::prng::Prng;
use crate::{masks, pictures, plain_asm, routines, script, texts};
use ht1130::WAY;
use std::fmt::Debug;
use std::sync::atomic::{AtomicBool, AtomicU64, Ordering::Relaxed};
use std::sync::Mutex;

/// What differed, in words.
type Outcome = Result<(), String>;

/// A sort of test: its name, the share of `cases` it takes, and one case.
struct Sort {
    name: &'static str,
    cases: fn(u64) -> u64,
    case: fn(&mut Prng, u64) -> Outcome,
}

const SORTS: [Sort; 31] = [
    Sort {
        name: "instructions read",
        cases: |_| 256,
        case: instructions_read,
    },
    Sort {
        name: "instructions written",
        cases: |_| 256,
        case: instructions_written,
    },
    Sort {
        name: "reads refused",
        cases: |_| 1,
        case: reads_refused,
    },
    Sort {
        name: "masks checked",
        cases: |n| n,
        case: mask_checked,
    },
    Sort {
        name: "checks refused",
        cases: |n| n / 10,
        case: check_refused,
    },
    Sort {
        name: "ways",
        cases: |n| n,
        case: ways,
    },
    Sort {
        name: "bounds, small masks",
        cases: |n| n / 2,
        case: small_bounds,
    },
    Sort {
        name: "bounds, longer masks",
        cases: |n| n / 10,
        case: some_bounds,
    },
    Sort {
        name: "bounds refused",
        cases: |n| n / 20,
        case: bounds_refused,
    },
    Sort {
        name: "edges held",
        cases: |n| n / 2,
        case: edges_held,
    },
    Sort {
        name: "edges held for the whole bound",
        cases: |n| n / 4,
        case: edges_held_longest,
    },
    Sort {
        name: "power-ons",
        cases: |n| 4 * n,
        case: power_on,
    },
    Sort {
        name: "fields out of range",
        cases: |_| FIELDS,
        case: field_out_of_range,
    },
    Sort {
        name: "single events",
        cases: |n| 20 * n,
        case: single_event,
    },
    Sort {
        name: "event lists on one record",
        cases: |n| n / 10,
        case: event_list,
    },
    Sort {
        name: "counts to their end",
        cases: |n| n / 20,
        case: count_to_the_end,
    },
    Sort {
        name: "scripts, valid",
        cases: |n| 2 * n,
        case: script_valid,
    },
    Sort {
        name: "scripts, damaged",
        cases: |n| 10 * n,
        case: script_damaged,
    },
    Sort {
        name: "scripts, longest",
        cases: |n| n / 100,
        case: script_longest,
    },
    Sort {
        name: "texts, given",
        cases: |_| (texts::ACCEPTED.len() + texts::REFUSED.len()) as u64,
        case: text_given,
    },
    Sort {
        name: "texts, accepted",
        cases: |n| 2 * n,
        case: text_accepted,
    },
    Sort {
        name: "texts, damaged",
        cases: |n| 5 * n,
        case: text_damaged,
    },
    Sort {
        name: "texts, careless",
        cases: |n| 10 * n,
        case: |prng, _| text_on_both(&texts::joined(&texts::careless(prng)), MASK),
    },
    Sort {
        name: "texts, by chance",
        cases: |n| 5 * n,
        case: |prng, _| text_on_both(&texts::joined(&texts::soup(prng)), MASK),
    },
    Sort {
        name: "texts, longest",
        cases: |n| n / 50,
        case: text_longest,
    },
    Sort {
        name: "pictures, all valid",
        cases: |_| plain_glass::valid().len() as u64,
        case: |_, case| {
            picture_of_both(&plain_glass::picture_of(
                plain_glass::valid()[case as usize].0,
            ))
        },
    },
    Sort {
        name: "pictures, a digit of 256 at each place",
        cases: |n| 2 * n,
        case: pictures_read,
    },
    Sort {
        name: "pictures refused",
        cases: |n| n / 20,
        case: pictures_refused,
    },
    Sort {
        name: "values drawn and read back",
        cases: |_| DRAWN_VALUES,
        case: value_drawn,
    },
    Sort {
        name: "readings drawn, any",
        cases: |n| 5 * n,
        case: reading_drawn,
    },
    Sort {
        name: "readings of machines",
        cases: |n| 4 * n,
        case: machine_read,
    },
];

/// The cases that `.ci/run` takes.
pub const CASES: u64 = 4000;

/// What the bounds, the count of strays and the glass have to meet in so many cases, to
/// tell the rule from another.
#[derive(Clone, Copy)]
enum Met {
    Bounded,
    Over10,
    Over100,
    Over4000,
    ByLoops,
    ByHalts,
    InMain,
    InBothLevels,
    Runs,
    Less,
    Exact,
    HeldOn,
    Strays,
    ByOneStep,
    Stopped,
    Cleared,
    GapRefused,
    Pictures,
    Dark,
    Numbers,
    Negative,
    MinusZeros,
    LeadingZeros,
    LastPoints,
    OnePlace,
    TwoPlaces,
    ThreePlaces,
    BadAt0,
    BadAt1,
    BadAt2,
    BadAt3,
    NoShape,
    SecondPoint,
    LateBlank,
    LateMinus,
    LastMinus,
    PointedBlank,
    PointedMinus,
    NoNibble,
    NotEight,
    Drawn,
    DrawnNegative,
    DrawnDark,
    NoFit,
    NoFitForMinus,
    NoPicture,
    SeenNumbers,
    SeenBad,
    SeenAsleep,
    SeenOnThree,
    SeenRefused,
}

const MUST_MEET: [(Met, &str, u64); 51] = [
    (Met::Bounded, "pairs with a bound", 50_000),
    (Met::Over10, "of them over 10", 30_000),
    (Met::Over100, "over 100", 15_000),
    (Met::Over4000, "over 4,000", 2_500),
    (Met::ByLoops, "pairs without one, by loops alone", 3_000),
    (Met::ByHalts, "by HALT alone", 1_000),
    (Met::InMain, "marked pairs in main", 6_000),
    (Met::InBothLevels, "addresses in both levels", 5_000),
    (Met::Runs, "runs from a bounded pair", 8_000),
    (Met::Less, "of them that spend less", 1_200),
    (Met::Exact, "runs that must spend just the bound", 2_000),
    (Met::HeldOn, "runs with a held edge", 4_500),
    (Met::Strays, "accesses to the gap", 5_000_000),
    (Met::ByOneStep, "single steps that counted", 70_000),
    (Met::Stopped, "events that counted on past 65,535", 15_000),
    (Met::Cleared, "power-ons that cleared a count", 3_000),
    (Met::GapRefused, "counts, of machines out of range", 25_000),
    (Met::Pictures, "pictures read", 4_000_000),
    (Met::Dark, "of them dark", 3_000),
    (Met::Numbers, "numbers", 200_000),
    (Met::Negative, "negative numbers", 40_000),
    (Met::MinusZeros, "minus zeros", 2_000),
    (Met::LeadingZeros, "with a zero that leads", 20_000),
    (Met::LastPoints, "with the point on the last digit", 40_000),
    (Met::OnePlace, "with a digit after the point", 30_000),
    (Met::TwoPlaces, "with two", 20_000),
    (Met::ThreePlaces, "with three", 10_000),
    (Met::BadAt0, "unreadable at digit 0", 1_000_000),
    (Met::BadAt1, "at digit 1", 1_000_000),
    (Met::BadAt2, "at digit 2", 1_000_000),
    (Met::BadAt3, "at digit 3", 800_000),
    (Met::NoShape, "for a shape that none has", 3_500_000),
    (Met::SecondPoint, "for a second point", 35_000),
    (
        Met::LateBlank,
        "for a blank after a digit or a minus",
        130_000,
    ),
    (
        Met::LateMinus,
        "for a minus after a digit or a minus",
        48_000,
    ),
    (Met::LastMinus, "for a minus at the right end", 1_000),
    (Met::PointedBlank, "for a point on a blank", 60_000),
    (Met::PointedMinus, "for a point on a minus", 24_000),
    (Met::NoNibble, "pictures with a nibble over 15", 7_000),
    (Met::NotEight, "pictures of another length", 1_000),
    (Met::Drawn, "numbers drawn", 42_997),
    (Met::DrawnNegative, "of them negative", 2_997),
    (Met::DrawnDark, "darks drawn", 3_500),
    (Met::NoFit, "numbers that do not fit", 29_609),
    (Met::NoFitForMinus, "of them for the minus alone", 700),
    (Met::NoPicture, "drawn to another length", 2_500),
    (Met::SeenNumbers, "machines that show a number", 13_000),
    (Met::SeenBad, "that show no reading", 1_000_000),
    (Met::SeenAsleep, "dark asleep, not awake", 700),
    (Met::SeenOnThree, "read otherwise on four commons", 2_000),
    (Met::SeenRefused, "out of range", 36_000),
];

static MET: [AtomicU64; MUST_MEET.len()] = [const { AtomicU64::new(0) }; MUST_MEET.len()];

fn meet(what: Met, times: usize) {
    MET[what as usize].fetch_add(times as u64, Relaxed);
}

/// Whether every pair of a small mask is asked for, which takes most of the time.
static WHOLE: AtomicBool = AtomicBool::new(false);

/// Runs all sorts, `cases` being the number of random masks to check and the
/// measure of the other sorts; false after a difference.
pub fn run(seed: u64, cases: u64, whole: bool) -> bool {
    WHOLE.store(whole, Relaxed);
    println!(
        "diff: seed {seed}, cases {cases}{}",
        if whole { ", every pair" } else { "" }
    );
    for sort in &SORTS {
        let count = (sort.cases)(cases).max(1);
        if let Some((case, what)) = first_difference(sort, seed, count) {
            println!(
                "DIFFERENCE in {}, seed {seed}, case {case}:\n{what}",
                sort.name
            );
            return false;
        }
        println!("{count:>8}  {}", sort.name);
    }
    for (what, name, least) in MUST_MEET {
        let met = MET[what as usize].load(Relaxed);
        println!("{met:>8}  {name}");
        if cases >= CASES && met < least {
            println!("too few: at least {least}");
            return false;
        }
    }
    println!("no difference");
    true
}

/// The stack of a thread: a bound takes over half a MB.
const STACK: usize = 8 << 20;

/// Runs a sort's cases on all processors; the lowest that differs.
fn first_difference(sort: &Sort, seed: u64, count: u64) -> Option<(u64, String)> {
    let (next, found) = (AtomicU64::new(0), Mutex::new(None));
    let work = || loop {
        let case = next.fetch_add(1, Relaxed);
        if case >= count {
            break;
        }
        // Each case has a generator of its own, so that it can be named.
        let mut prng = Prng::new(seed);
        for byte in sort.name.bytes() {
            prng = Prng::new(prng.next() ^ byte as u64);
        }
        let mut prng = Prng::new(prng.next().wrapping_add(case));
        if let Err(what) = (sort.case)(&mut prng, case) {
            next.fetch_max(count, Relaxed); // those before it are under way
            let mut found = found.lock().expect("no case panics here");
            if found.as_ref().is_none_or(|&(first, _)| case < first) {
                *found = Some((case, what));
            }
        }
    };
    std::thread::scope(|scope| {
        for _ in 0..std::thread::available_parallelism().map_or(1, |n| n.get()) {
            let thread = std::thread::Builder::new().stack_size(STACK);
            thread.spawn_scoped(scope, work).expect("a thread");
        }
    });
    found.into_inner().expect("no case panics here")
}

fn same<T: PartialEq + Debug>(what: impl FnOnce() -> String, library: T, plain: T) -> Outcome {
    if library == plain {
        return Ok(());
    }
    Err(format!(
        "{}\n  library {library:X?}\n  plain   {plain:X?}",
        what()
    ))
}

fn same_machine(
    what: impl FnOnce() -> String,
    library: &ht1130::Machine,
    plain: &plain::Machine,
) -> Outcome {
    let (library, plain) = (to_plain(library), plain.recorded());
    if library == plain {
        return Ok(());
    }
    let mut text = what();
    macro_rules! name_differing {
        ($($field:ident)*) => {
            $(if library.$field != plain.$field {
                text += &format!(
                    "\n  {}: library {:X?}, plain {:X?}",
                    stringify!($field), library.$field, plain.$field,
                );
            })*
        };
    }
    name_differing! {
        acc r pc cf tf timer running enabled held level stack stack_cf halted fault pa channel mode
        pm ps pp int options cycles memory strays
    }
    Err(text)
}

/// Bytes on either side of each buffer that a call may write to; compared too.
const FENCE: usize = 64;

/// Two buffers of so many bytes, one for each engine, with their fences.
struct Buffers {
    bytes: [Vec<u8>; 2],
    inner: std::ops::Range<usize>,
}

impl Buffers {
    fn new(length: usize) -> Buffers {
        let fenced = vec![0xA5; length + 2 * FENCE];
        Buffers {
            bytes: [fenced.clone(), fenced],
            inner: FENCE..FENCE + length,
        }
    }

    fn library(&mut self) -> &mut [u8] {
        &mut self.bytes[0][self.inner.clone()]
    }

    fn plain(&mut self) -> &mut [u8] {
        &mut self.bytes[1][self.inner.clone()]
    }

    fn same(&self, what: impl FnOnce() -> String) -> Outcome {
        let [library, plain] = &self.bytes;
        match library.iter().zip(plain).position(|(l, p)| l != p) {
            None => Ok(()),
            Some(at) => Err(format!(
                "{}: byte {}, library {:02X}, plain {:02X}",
                what(),
                at as isize - FENCE as isize,
                library[at],
                plain[at]
            )),
        }
    }
}

/// Lends the library a record between two others, which have to stay.
fn fenced<T>(
    m: &mut ht1130::Machine,
    call: impl FnOnce(&mut ht1130::Machine) -> T,
) -> Result<T, String> {
    let mut other = ht1130::Machine::zeroed();
    for field in 0..FIELDS {
        set(&mut other, field, 0xA5A5_A5A5);
    }
    let mut row = [other, *m, other];
    let answer = call(&mut row[1]);
    *m = row[1];
    same(
        || "records beside the lent one".into(),
        [row[0], row[2]],
        [other; 2],
    )?;
    Ok(answer)
}

fn hex(bytes: &[u8]) -> String {
    const MOST: usize = 400;
    let shown: String = bytes
        .iter()
        .take(MOST)
        .map(|b| format!("{b:02X} "))
        .collect();
    format!(
        "{shown}{}({} bytes)",
        if bytes.len() > MOST { "... " } else { "" },
        bytes.len()
    )
}

fn pick<T: Copy>(prng: &mut Prng, from: &[T]) -> T {
    from[prng.below(from.len() as u64) as usize]
}

// Masks

fn any_mask(prng: &mut Prng) -> Mask {
    match prng.below(8) {
        0 => masks::random_bytes(prng),
        1 => masks::random_instructions(prng, false),
        2 | 3 => masks::random_instructions(prng, true),
        4 | 5 => masks::lively(prng),
        6 => masks::sparse(prng),
        _ => masks::special(prng.below(masks::SPECIAL)),
    }
}

fn mask_of_wrong_length(prng: &mut Prng) -> Vec<u8> {
    let length = pick(
        prng,
        &[
            0,
            1,
            2,
            48,
            166,
            4095,
            4097,
            8192,
            65535,
            65536,
            65536 + 4096,
        ],
    );
    vec![0x3E; length]
}

fn mask_checked(prng: &mut Prng, case: u64) -> Outcome {
    let mask = if case < masks::SPECIAL {
        masks::special(case)
    } else {
        any_mask(prng)
    };
    marks_of_both(&mask, MASK)
}

fn check_refused(prng: &mut Prng, _: u64) -> Outcome {
    let wrong = pick(prng, &[0, 1, 48, 4095, 4097, 8192]);
    let (mask, length) = match prng.below(3) {
        0 => (mask_of_wrong_length(prng), MASK),
        1 => (mask_of_wrong_length(prng), wrong),
        _ => (any_mask(prng).to_vec(), wrong),
    };
    marks_of_both(&mask, length)
}

fn marks_of_both(mask: &[u8], length: usize) -> Outcome {
    let lent = mask.to_vec();
    let mut marks = Buffers::new(length);
    let library = library::check(&lent, marks.library());
    let plain = plain::check(mask, marks.plain());
    let what = || {
        format!(
            "check with marks of {length} bytes of the mask {}",
            hex(mask)
        )
    };
    same(what, library, packed::verdict(&plain))?;
    marks.same(what)?;
    same(|| "mask after its check".into(), &lent[..], mask)
}

/// Most of the masks fail: a passing one has no way.
fn ways(prng: &mut Prng, case: u64) -> Outcome {
    let given = case < masks::SPECIAL;
    let mut mask = if given {
        masks::special(case)
    } else {
        any_mask(prng)
    };
    let mut way = plain::way(&mask);
    while way.is_err() && !given && !case.is_multiple_of(16) {
        mask = any_mask(prng);
        way = plain::way(&mask);
    }
    marks_by_distance(&mask)?;
    let exact = 3 * way.unwrap_or(0) as usize;
    let between = prng.below(exact as u64 + 1) as usize;
    let longer = exact + 1 + prng.below(9) as usize;
    for length in [0, between, exact.saturating_sub(1), exact, longer, WAY] {
        way_of_both(&mask, length, way)?;
    }
    let more = [&mask[..], &mask[..1]].concat();
    for wrong in [&mask[1..], &more, &mask_of_wrong_length(prng)] {
        way_of_both(wrong, pick(prng, &[0, exact, WAY]), plain::way(wrong))?;
    }
    Ok(())
}

/// The plain engine's two rules for what comes next, against each other.
fn marks_by_distance(mask: &Mask) -> Outcome {
    let mut marks = [0; MASK];
    let _ = plain::check(mask, &mut marks);
    let distances = plain::distances(mask);
    for (address, found) in distances.iter().enumerate() {
        let reached = [0, 1, 2].map(|level| ((found[level] != 0) as u8) << level);
        let (mark, reached) = (marks[address], reached.iter().sum::<u8>());
        if mark != reached {
            return Err(format!(
                "plain alone: {address:03X} has mark {mark}, chains reach {reached}, mask {}",
                hex(mask)
            ));
        }
    }
    Ok(())
}

fn way_of_both(mask: &[u8], length: usize, way: Result<u16, plain::Refusal>) -> Outcome {
    let what = || format!("way in a list of {length} bytes of the mask {}", hex(mask));
    let lent = mask.to_vec();
    let mut list = Buffers::new(length);
    let library = library::way(&lent, list.library());
    let plain = plain::listed(way, length);
    same(what, library, packed::counted(&plain))?;
    same(|| "mask after its way".into(), &lent[..], mask)?;
    // Which of several ways is free, so the library's is tested, and then taken.
    let bytes = 3 * plain.unwrap_or(0) as usize;
    let listed = list.library()[..bytes].to_vec();
    if bytes > 0 {
        is_way(mask, &listed).map_err(|text| format!("{}: {text}\n  {}", what(), hex(&listed)))?;
        list.plain()[..bytes].copy_from_slice(&listed);
    }
    list.same(what)
}

/// A chain from the start to the pair that the plain checker names.
fn is_way(mask: &[u8], listed: &[u8]) -> Outcome {
    let mask: &Mask = mask.try_into().map_err(|_| "no mask")?;
    let pairs: Vec<plain::Pair> = listed
        .chunks(3)
        .map(|pair| (pair[0] as u16 | (pair[1] as u16) << 8, pair[2]))
        .collect();
    same(|| "first pair".into(), pairs.first(), Some(&(0, 0)))?;
    for step in pairs.windows(2) {
        let (from, to) = (step[0], step[1]);
        if from.0 > 0xFFF || !plain::successors(mask, from).any(|next| next == to) {
            return Err(format!("{to:X?} is no successor of {from:X?}"));
        }
    }
    let named = plain::check(mask, &mut [0; MASK]).expect("buffers of the right length");
    let named = named.map(|failure| (failure.address, failure.level));
    same(|| "last pair".into(), pairs.last().copied(), named)?;
    let safe: Vec<_> = ht1130::pairs(listed)
        .map(|pair| (pair.address, pair.level))
        .collect();
    same(|| "pairs taken apart".into(), safe, pairs)
}

// Bounds

fn bound_of_both(mask: &[u8], (address, level): Pair, plain: Result<Bound, u8>) -> Outcome {
    let what = || {
        format!(
            "bound of {address:X} in level {level} of the mask {}",
            hex(mask)
        )
    };
    let library = library::bound(mask, address, level);
    same(what, library, packed::bound(plain))
}

/// The same by the safe function.
fn safe_bound_of_both(mask: &[u8], pair: Pair, plain: Result<Bound, u8>) -> Outcome {
    bound_of_both(mask, pair, plain)?;
    let safe = match ht1130::bound(mask, pair.0, pair.1) {
        Err(refusal) => Err(refusal.number()),
        Ok(ht1130::Bound::NotReached) => Ok(Bound::NotReached),
        Ok(ht1130::Bound::NoBound) => Ok(Bound::NoBound),
        Ok(ht1130::Bound::Cycles(cycles)) => Ok(Bound::Cycles(cycles)),
    };
    same(|| format!("safe bound of {pair:X?}"), safe, plain)
}

fn all_pairs() -> impl Iterator<Item = Pair> {
    (0..MASK as u16).flat_map(|address| (0..3).map(move |level| (address, level)))
}

fn at(bounds: &Bounds, (address, level): Pair) -> Bound {
    bounds[address as usize][level as usize]
}

/// Notes the answers for some pairs.
fn note_bounds(mask: &Mask, bounds: &Bounds, pairs: &[Pair]) {
    let over = |least: u32| move |&bound: &Bound| matches!(bound, Bound::Cycles(n) if n > least);
    let answers = || pairs.iter().map(|&pair| at(bounds, pair));
    meet(Met::Bounded, answers().filter(over(0)).count());
    meet(Met::Over10, answers().filter(over(10)).count());
    meet(Met::Over100, answers().filter(over(100)).count());
    meet(Met::Over4000, answers().filter(over(4000)).count());
    let endless = |bounds: &Bounds| {
        let answers = pairs.iter().map(|&pair| at(bounds, pair));
        answers.filter(|&bound| bound == Bound::NoBound).count()
    };
    // With NOPs for every HALT only loops are left.
    let mut awake = *mask;
    for at in 0..MASK - 1 {
        if awake[at..at + 2] == [0x37, 0x3E] {
            awake[at] = 0x3E;
        }
    }
    let without = endless(bounds);
    let by_loops = match plain::bounds(&awake) {
        _ if awake == *mask => without,
        Ok(bounds) => endless(&bounds),
        Err(_) => return,
    };
    match by_loops {
        0 => meet(Met::ByHalts, without),
        _ if by_loops == without => meet(Met::ByLoops, without),
        _ => {}
    }
}

fn passed_bounds(mask: &Mask) -> Result<Box<Bounds>, String> {
    plain::bounds(mask).map_err(|number| format!("plain alone: refusal {number} of {}", hex(mask)))
}

/// One in so many of the pairs that a mask does not reach is asked for.
const UNREACHED: u64 = 16;

/// Small masks, each of whose calls checks the mask: every pair that is reached, and of
/// the others a sample, or all.
fn small_bounds(prng: &mut Prng, _: u64) -> Outcome {
    let mask = match prng.below(8) {
        0 => routines::decided(prng),
        _ => routines::small(prng),
    };
    let bounds = passed_bounds(&mask)?;
    let lent = mask;
    let asked: Vec<Pair> = all_pairs()
        .filter(|&pair| {
            let chance = prng.below(UNREACHED) == 0;
            chance || at(&bounds, pair) != Bound::NotReached || WHOLE.load(Relaxed)
        })
        .collect();
    for &pair in &asked {
        bound_of_both(&lent, pair, Ok(at(&bounds, pair)))?;
    }
    same(|| "mask after its bounds".into(), &lent[..], &mask)?;
    note_bounds(&mask, &bounds, &asked);
    let mut marks = [0; MASK];
    let _ = plain::check(&mask, &mut marks);
    let marked = |levels: u8| marks.iter().filter(|&mark| mark & levels == levels).count();
    meet(Met::InMain, marked(1));
    meet(Met::InBothLevels, marked(6));
    Ok(())
}

/// Marked pairs, of which long masks have too many to ask for all, and others.
fn some_bounds(prng: &mut Prng, case: u64) -> Outcome {
    let mask = match case % 8 {
        0 => routines::long(prng),
        1 => routines::reads(prng),
        2..=4 => routines::deep(prng),
        _ => routines::scattered(prng),
    };
    let bounds = passed_bounds(&mask)?;
    let marked: Vec<Pair> = all_pairs()
        .filter(|&pair| at(&bounds, pair) != Bound::NotReached)
        .collect();
    let mut asked = routines::entries(&mask);
    for _ in 0..100 {
        asked.push((prng.below(MASK as u64) as u16, prng.byte() % 3));
        if !marked.is_empty() {
            let pair = pick(prng, &marked);
            asked.extend([pair, (pair.0, prng.byte() % 3)]);
        }
    }
    for &pair in &asked {
        safe_bound_of_both(&mask, pair, Ok(at(&bounds, pair)))?;
    }
    note_bounds(&mask, &bounds, &asked);
    Ok(())
}

/// 1, then 5, then 15, whatever else holds.
fn bounds_refused(prng: &mut Prng, case: u64) -> Outcome {
    let mask = match case % 4 {
        0 => mask_of_wrong_length(prng),
        1 => routines::small(prng).to_vec(),
        _ => any_mask(prng).to_vec(),
    };
    let bounds = plain::bounds(&mask);
    for address in [0, 4, 8, 0xFFF, 0x1000, 0x1004, 0x8000, 0xFFFF] {
        for level in [0, 1, 2, 3, 4, 5, 128, 254, 255, prng.byte()] {
            let plain = match &bounds {
                Err(1) => Err(1),
                _ if address > 0xFFF || level > 2 => Err(5),
                Err(_) => Err(15),
                Ok(bounds) => Ok(at(bounds, (address, level))),
            };
            safe_bound_of_both(&mask, (address, level), plain)?;
        }
        let level = prng.byte() % 4;
        let plain = plain::bound(&mask, address, level);
        bound_of_both(&mask, (address, level), plain)?;
    }
    Ok(())
}

/// A machine by chance at a pair, neither halted nor faulted.
fn machine_at(prng: &mut Prng, (address, level): Pair) -> ht1130::Machine {
    let mut m = machine(prng);
    m.cpu.control.pc = address;
    m.cpu.interrupts.level = level;
    m.cpu.status = ht1130::Status {
        halted: 0,
        fault: 0,
    };
    m
}

fn step_both(m: &mut ht1130::Machine, mask: &Mask) -> Result<u32, String> {
    let before = m.cpu.cycles;
    event_on_both(m, (plain::RUN, 1, 0, 0, 0), mask)?;
    Ok(m.cpu.cycles.wrapping_sub(before))
}

/// Whatever the machine holds and whatever happens between its steps, but RES and
/// power-on, it comes to level 0 within the bound, and an edge is held until then.
fn edges_held(prng: &mut Prng, case: u64) -> Outcome {
    let mask = match case % 16 {
        0 => routines::long(prng),
        1 => routines::deep(prng),
        2 | 3 => routines::scattered(prng),
        _ => routines::small(prng),
    };
    let bounds = passed_bounds(&mask)?;
    let bounded: Vec<Pair> = all_pairs()
        .filter(|&pair| matches!(at(&bounds, pair), Bound::Cycles(_)))
        .collect();
    if bounded.is_empty() {
        return Ok(());
    }
    for _ in 0..8 {
        let pair = pick(prng, &bounded);
        held_from(prng, &mask, pair, at(&bounds, pair))?;
    }
    Ok(())
}

fn held_from(prng: &mut Prng, mask: &Mask, pair: Pair, bound: Bound) -> Outcome {
    let Bound::Cycles(most) = bound else {
        return Err(format!("{pair:X?} has no bound"));
    };
    bound_of_both(mask, pair, Ok(bound))?;
    let mut m = machine_at(prng, pair);
    let (mut spent, mut held) = (0, m.cpu.interrupts.held);
    while m.cpu.interrupts.level != 0 {
        while prng.below(4) == 0 {
            event_on_both(&mut m, between(prng), &mask[1..])?;
            held |= m.cpu.interrupts.held;
        }
        spent += step_both(&mut m, mask)?;
        let status = (
            m.cpu.status.halted,
            m.cpu.status.fault,
            m.cpu.interrupts.held,
        );
        if spent > most || status != (0, 0, held) {
            return Err(format!(
                "from {pair:X?} with bound {most}: {spent} cycles spent, halted, fault and held {status:?}, mask {}\n  {m:X?}",
                hex(mask)
            ));
        }
    }
    meet(Met::Runs, 1);
    meet(Met::HeldOn, held as usize);
    meet(Met::Less, (spent < most) as usize);
    if held == 1 && m.cpu.interrupts.enabled == 1 {
        step_both(&mut m, mask)?;
        let taken = (
            m.cpu.control.pc,
            m.cpu.interrupts.level,
            m.cpu.interrupts.held,
        );
        same(|| "the held edge is taken".into(), taken, (8, 2, 0))?;
    }
    Ok(())
}

/// An event that may come between two steps, refused ones too: a Run gets a mask
/// that is too short.
fn between(prng: &mut Prng) -> Event {
    let mut value = || prng.byte() % 17;
    let ports = [value(), value(), value()];
    match prng.below(8) {
        0..=2 => (plain::PINS, 0, ports[0], ports[1], ports[2]),
        3..=5 => (plain::INT, 0, prng.byte() % 3, 0, 0),
        6 => (plain::TMCLK, script::pulses(prng), 0, 0, 0),
        _ => (pick(prng, &[0, 7, 8, 255, plain::RUN]), 1, 0, 0, 0),
    }
}

/// Where pins and TMCLK decide every branch, a run spends just the bound.
fn edges_held_longest(prng: &mut Prng, _: u64) -> Outcome {
    let mask = routines::decided(prng);
    let bounds = passed_bounds(&mask)?;
    for pair in routines::entries(&mask) {
        let Bound::Cycles(most) = at(&bounds, pair) else {
            continue;
        };
        bound_of_both(&mask, pair, Ok(Bound::Cycles(most)))?;
        let mut m = machine_at(prng, pair);
        m.cpu.control.tf = 0; // only JTMR clears it
        m.cpu.options.rate = plain::EXTERNAL;
        let mut left = most;
        while m.cpu.interrupts.level != 0 {
            (m, left) = longer_side(&m, &mask, &bounds, left)?.ok_or_else(|| {
                format!(
                    "from {pair:X?} no run spends {most}: {left} left at {m:X?}, mask {}",
                    hex(&mask)
                )
            })?;
        }
        meet(Met::Exact, 1);
    }
    Ok(())
}

/// The machine after the next branch, or in level 0, with the pins and TMCLK such
/// that the cycles left are the bound there, and these cycles; none where no pins do.
fn longer_side(
    m: &ht1130::Machine,
    mask: &Mask,
    bounds: &Bounds,
    left: u32,
) -> Result<Option<(ht1130::Machine, u32)>, String> {
    for (pins, pulses) in [(0, 0), (15, 0), (0, 256), (15, 256)] {
        let (mut m, mut spent, mut branched) = (*m, 0, false);
        while !branched && m.cpu.interrupts.level != 0 {
            event_on_both(&mut m, (plain::PINS, 0, pins, pins, pins), mask)?;
            event_on_both(&mut m, (plain::TMCLK, pulses, 0, 0, 0), mask)?;
            let code = plain::read(mask, m.cpu.control.pc);
            branched = matches!(code, Ok(Some(code)) if code.form == plain::form::BRANCH);
            spent += step_both(&mut m, mask)?;
        }
        let after = match at(bounds, (m.cpu.control.pc, m.cpu.interrupts.level)) {
            Bound::Cycles(cycles) => cycles,
            _ => 0, // level 0
        };
        if spent + after == left {
            return Ok(Some((m, after)));
        }
    }
    Ok(None)
}

// Instructions

fn instructions_read(_: &mut Prng, case: u64) -> Outcome {
    let first = case as u8;
    let mut mask = [0x3E; MASK];
    for second in 0..=255 {
        for address in [0, 0x7FF, MASK - 1] {
            mask[address] = first;
            mask[(address + 1) % MASK] = second;
            let what = || format!("read of {first:02X} {second:02X} at {address:03X}");
            let plain = plain::read(&mask, address as u16);
            same(
                what,
                library::read(&mask, address as u16),
                packed::instruction(&plain),
            )?;
            let Ok(Some(i)) = plain else { continue };
            let written = packed::code(&Ok((
                i.length,
                first,
                if i.length == 2 { second } else { 0 },
            )));
            let what = || format!("written back: {first:02X} {second:02X}, {i:?}");
            same(what, library::write(i.form, i.a, i.b), written)?;
            let safe = ht1130::read(&mask, address as u16)
                .map(|r| r.map(|i| (i.form, i.a, i.b, i.length, i.cycles)));
            same(what, safe, Ok(Some((i.form, i.a, i.b, i.length, i.cycles))))?;
        }
    }
    Ok(())
}

fn instructions_written(prng: &mut Prng, case: u64) -> Outcome {
    let form = case as u8;
    let mut spread = vec![
        0, 1, 15, 16, 17, 127, 255, 256, 257, 2046, 2047, 2048, 2049, 4094, 4095, 4096, 4097, 65535,
    ];
    spread.extend((0..8).map(|_| prng.next() as u16));
    spread.extend((0..8).map(|_| prng.below(4096) as u16));
    for a in 0..=255 {
        for &b in &spread {
            let what = || format!("write of form {form}, a {a}, b {b}");
            let plain = plain::encode(form, a, b);
            same(what, library::write(form, a, b), packed::code(&plain))?;
            let safe = ht1130::write(form, a, b)
                .map(|code| code.to_vec())
                .map_err(|r| r.number());
            same(
                what,
                safe,
                plain.map(|(n, first, second)| [first, second][..n as usize].to_vec()),
            )?;
            let Ok((_, first, second)) = plain else {
                continue;
            };
            let mut mask = [0; MASK];
            mask[..2].copy_from_slice(&[first, second]);
            let read = library::read(&mask, 0);
            same(what, read, packed::instruction(&plain::read(&mask, 0)))?;
            // Operands that the form has come back as they were.
            let (form_back, a_back, b_back) =
                ((read >> 16) as u8, (read >> 24) as u8, (read >> 32) as u16);
            same(what, form_back, form)?;
            same(what, a_back, if a_back == 0 { 0 } else { a })?;
            same(what, b_back, if b_back == 0 { 0 } else { b })?;
        }
    }
    Ok(())
}

fn reads_refused(prng: &mut Prng, _: u64) -> Outcome {
    let mask = any_mask(prng);
    for address in 0..=65535 {
        let what = || format!("read at {address}");
        same(
            what,
            library::read(&mask, address),
            packed::instruction(&plain::read(&mask, address)),
        )?;
    }
    for length in [0, 1, 2, 4095, 4097, 8192, 65536 + 4096] {
        let mask = vec![0x3E; length];
        for address in [0, 1, 4095, 4096, 65535] {
            let what = || format!("read at {address} of a mask of {length} bytes");
            same(
                what,
                library::read(&mask, address),
                packed::instruction(&plain::read(&mask, address)),
            )?;
        }
    }
    Ok(())
}

// Machines

/// A machine in range.
fn machine(prng: &mut Prng) -> ht1130::Machine {
    let mut m = ht1130::Machine::zeroed();
    for field in 0..FIELDS {
        let value = prng.next() as u32;
        set(&mut m, field, within(field, value));
    }
    let cpu = &mut m.cpu;
    // Runs that go on are worth more than ones that do not start.
    if prng.below(4) != 0 {
        cpu.status.halted = 0;
    }
    if cpu.status.halted == 1 || prng.below(8) != 0 {
        cpu.status.fault = 0;
    }
    if prng.below(4) == 0 {
        cpu.control.pc = pick(prng, &[0, 4, 8, 0x7FD, 0x7FE, 0x7FF, 0xFFE, 0xFFF]);
    }
    if prng.below(4) == 0 {
        cpu.cycles = pick(
            prng,
            &[0, 2046, 2047, 4095, u32::MAX, u32::MAX - 1, u32::MAX - 20],
        );
    }
    if prng.below(6) == 0 {
        cpu.options.rate = plain::EXTERNAL;
    }
    if prng.below(4) == 0 {
        cpu.timer.count = 250 + prng.below(6) as u8;
    }
    if prng.below(3) == 0 {
        let edges = [0x7F, 0x80, 0xDF, 0xE0, 0x80 + prng.byte() % 0x60];
        let (one, other) = (pick(prng, &edges), pick(prng, &edges));
        (cpu.registers.r0, cpu.registers.r1) = (one & 15, one >> 4);
        (cpu.registers.r2, cpu.registers.r3) = (other & 15, other >> 4);
    }
    if prng.below(3) == 0 {
        m.gap = pick(prng, &[0, 0, 65532, 65533, 65534, 65535, 65000]);
    }
    m
}

/// Fields by number: 31 of the processor, the memory, the count.
const FIELDS: u64 = 31 + 160 + 1;
const GAP: u64 = FIELDS - 1;

fn set(m: &mut ht1130::Machine, field: u64, value: u32) {
    let byte = value as u8;
    let cpu = &mut m.cpu;
    match field {
        0 => cpu.registers.acc = byte,
        1 => cpu.registers.r0 = byte,
        2 => cpu.registers.r1 = byte,
        3 => cpu.registers.r2 = byte,
        4 => cpu.registers.r3 = byte,
        5 => cpu.registers.r4 = byte,
        6 => cpu.control.pc = value as u16,
        7 => cpu.control.cf = byte,
        8 => cpu.control.tf = byte,
        9 => cpu.timer.count = byte,
        10 => cpu.timer.running = byte,
        11 => cpu.interrupts.enabled = byte,
        12 => cpu.interrupts.held = byte,
        13 => cpu.interrupts.level = byte,
        14 => cpu.stack.address = value as u16,
        15 => cpu.stack.carry = byte,
        16 => cpu.status.halted = byte,
        17 => cpu.status.fault = byte,
        18 => cpu.outputs.pa = byte,
        19 => cpu.outputs.channel = byte,
        20 => cpu.outputs.mode = byte,
        21 => cpu.pins.pm = byte,
        22 => cpu.pins.ps = byte,
        23 => cpu.pins.pp = byte,
        24 => cpu.pins.intr = byte,
        25 => cpu.options.rate = byte,
        26 => cpu.options.commons = byte,
        27 => cpu.options.pm = byte,
        28 => cpu.options.ps = byte,
        29 => cpu.options.pp = byte,
        30 => cpu.cycles = value,
        GAP => m.gap = value as u16,
        31.. => m.memory[field as usize - 31] = byte,
    }
}

/// The field's value in its range that a random number picks.
fn within(field: u64, value: u32) -> u32 {
    match field {
        6 | 14 => value % 4096,
        7 | 8 | 10 | 11 | 12 | 15 | 16 | 20 | 24 => value % 2,
        9 => value % 256,
        13 => value % 3,
        17 => value % 4,
        19 => value % 17,
        25 => script::RATES[value as usize % 14] as u32,
        26 => 3 + value % 2,
        30 | GAP => value,
        _ => value % 16,
    }
}

/// The first value over the field's range.
fn over(field: u64) -> u32 {
    match field {
        6 | 14 => 4096,
        7 | 8 | 10 | 11 | 12 | 15 | 16 | 20 | 24 => 2,
        9 | 30 => 256,
        GAP => 65536,
        13 => 3,
        17 => 4,
        19 => 17,
        25 => 6,
        26 => 2,
        _ => 16,
    }
}

type Event = (u16, u16, u8, u8, u8);

/// The same event on both; all fields compared after it, refused or not.
fn event_on_both(m: &mut ht1130::Machine, event: Event, mask: &[u8]) -> Outcome {
    next_on_both(m, &mut to_plain(m), event, mask)
}

/// The next event of a list, with the plain machine that those before it left.
fn next_on_both(
    m: &mut ht1130::Machine,
    plain: &mut plain::Machine,
    event: Event,
    mask: &[u8],
) -> Outcome {
    let before = *m;
    let (kind, count, a, b, c) = event;
    let strays = plain.strays;
    let lent = mask.to_vec();
    let library = fenced(m, |m| {
        number(ht1130::apply_kind(m, kind, count, a, b, c, &lent))
    })?;
    same(|| "mask after an event".into(), &lent[..], mask)?;
    let refusal = plain.apply(kind, count, a, b, c, mask).err().unwrap_or(0);
    let what = || {
        format!(
            "event kind {kind}, count {count}, a {a}, b {b}, c {c}, mask {}\n  before  {before:X?}",
            hex(mask)
        )
    };
    same(|| format!("refusal of {}", what()), library, refusal)?;
    same_machine(what, m, plain).map_err(|text| {
        if kind == plain::RUN {
            text + &first_step(before, count, mask)
        } else {
            text
        }
    })?;
    let more = plain.strays - strays;
    meet(Met::Strays, more as usize);
    meet(Met::ByOneStep, (count == 1 && more > 0) as usize);
    meet(Met::Stopped, (more > 0 && plain.strays > 65535) as usize);
    count_of_both(m, plain)?;
    reading_of_both(m, plain)
}

/// The query of the count, by number and by the safe function.
fn count_of_both(m: &ht1130::Machine, plain: &plain::Machine) -> Outcome {
    let lent = *m;
    let count = plain.gap_count();
    let what = || format!("count of strays of {m:X?}");
    same(what, library::gap_count(&lent), packed::counted(&count))?;
    let safe = ht1130::gap_count(&lent).map_err(|refusal| refusal.number());
    same(what, safe, count)?;
    meet(Met::GapRefused, (count.is_err() && m.gap > 0) as usize);
    same(|| "machine after its count".into(), lent, *m)
}

/// Names the step at which two runs part.
fn first_step(mut m: ht1130::Machine, count: u16, mask: &[u8]) -> String {
    for step in 1..=count {
        let mut plain = to_plain(&m);
        let pc = plain.pc as usize;
        let _ = ht1130::apply_kind(&mut m, plain::RUN, 1, 0, 0, 0, mask);
        let _ = plain.apply(plain::RUN, 1, 0, 0, 0, mask);
        let code = [mask[pc % MASK], mask[(pc + 1) % MASK]];
        let what = || {
            format!(
                "\n  parted at step {step}, PC {pc:03X}, code {:02X} {:02X}",
                code[0], code[1]
            )
        };
        if let Err(text) = same_machine(what, &m, &plain) {
            return text;
        }
    }
    "\n  step by step they agree".into()
}

fn report_of_both(m: &ht1130::Machine, length: usize) -> Outcome {
    let lent = *m;
    let mut out = Buffers::new(length);
    let library = number(ht1130::report(&lent, out.library()));
    let plain = to_plain(m).report(out.plain()).err().unwrap_or(0);
    let what = || format!("report to {length} bytes of {m:X?}");
    same(|| format!("refusal of {}", what()), library, plain)?;
    out.same(what)?;
    same(|| "machine after its report".into(), lent, *m)
}

fn any_event(prng: &mut Prng, steps: u16) -> Event {
    let kind = match prng.below(16) {
        0 => prng.below(10) as u16,
        1 => pick(
            prng,
            &[0, 1, 7, 8, 9, 255, 256, 258, 259, 262, 512 + 3, 65535],
        ),
        2..=6 => plain::RUN,
        _ => 2 + prng.below(5) as u16,
    };
    let count = if kind == plain::TMCLK {
        script::pulses(prng)
    } else {
        prng.below(steps as u64 + 1) as u16
    };
    let mut value = |bound: u8| {
        if prng.below(12) == 0 {
            prng.byte()
        } else {
            prng.byte() % bound
        }
    };
    let bound = if kind == plain::INT { 2 } else { 16 };
    (kind, count, value(bound), value(bound), value(bound))
}

fn event_mask(prng: &mut Prng) -> Vec<u8> {
    match prng.below(12) {
        0 => mask_of_wrong_length(prng),
        1..=3 => masks::straying(prng).to_vec(),
        _ => any_mask(prng).to_vec(),
    }
}

fn single_event(prng: &mut Prng, _: u64) -> Outcome {
    let mut m = machine(prng);
    match prng.below(8) {
        0 => {
            let field = prng.below(FIELDS);
            set(&mut m, field, prng.next() as u32);
        }
        1 => {
            for field in 0..FIELDS {
                set(&mut m, field, prng.next() as u32);
            }
        }
        2 => {
            m.cpu.status.halted = 1;
            m.cpu.status.fault = prng.byte() % 4;
        }
        _ => {}
    }
    let steps = pick(prng, &[1, 1, 2, 30, 300]);
    let event = any_event(prng, steps);
    // Only Run needs a mask worth making.
    let mask = if event.0 == plain::RUN {
        event_mask(prng)
    } else {
        vec![0x35; pick(prng, &[0, 1, MASK])]
    };
    for length in [REPORT - 1, REPORT, REPORT + 1, 0, 200] {
        report_of_both(&m, length)?;
    }
    event_on_both(&mut m, event, &mask)?;
    report_of_both(&m, REPORT)
}

/// Each field alone just over its range, and far over it, under every kind.
fn field_out_of_range(prng: &mut Prng, field: u64) -> Outcome {
    let mask = masks::lively(prng);
    let far = prng.next() as u32 | 0x8080;
    for value in [
        over(field) - 1,
        over(field),
        over(field) + 1,
        0xFF,
        0xFFFF,
        far,
    ] {
        for kind in 0..10 {
            for (length, a) in [(MASK, 1), (MASK - 1, 1), (MASK, 16)] {
                let mut m = machine(prng);
                set(&mut m, field, value);
                event_on_both(&mut m, (kind, 40, a, 1, 1), &mask[..length])?;
            }
        }
        let mut m = machine(prng);
        set(&mut m, field, value);
        for length in [REPORT - 1, REPORT, REPORT + 1] {
            report_of_both(&m, length)?;
        }
    }
    Ok(())
}

fn options(prng: &mut Prng) -> plain::Options {
    let mut options = plain::Options {
        rate: pick(prng, &script::RATES),
        commons: 3 + prng.byte() % 2,
        wake_pm: prng.byte() & 15,
        wake_ps: prng.byte() & 15,
        wake_pp: prng.byte() & 15,
    };
    match prng.below(10) {
        0 => options.rate = prng.byte(),
        1 => options.commons = prng.byte() % 8,
        2 => options.wake_pm = prng.byte(),
        3 => options.wake_ps = prng.byte(),
        4 => options.wake_pp = prng.byte(),
        5 => options.rate = prng.byte() % 16,
        _ => {}
    }
    options
}

fn power_on_both(prng: &mut Prng, m: &mut ht1130::Machine, plain: &mut plain::Machine) -> Outcome {
    let length = if prng.below(8) == 0 {
        pick(prng, &[0, 1, 6, 165, 167, 332, 4096])
    } else {
        IMAGE
    };
    let mut image: Vec<u8> = (0..length).map(|_| prng.byte() & 15).collect();
    if length > 0 && prng.below(6) == 0 {
        image[prng.below(length as u64) as usize] = 16 | prng.byte();
    }
    let options = options(prng);
    let before = *m;
    let lent = library::options(&options);
    let library = fenced(m, |m| number(ht1130::power_on(m, lent, &image)))?;
    let refusal = plain.power_on(options, &image).err().unwrap_or(0);
    let what = || {
        format!(
            "power-on with {options:?}, image {}\n  before  {before:X?}",
            hex(&image)
        )
    };
    same(|| format!("refusal of {}", what()), library, refusal)?;
    same_machine(what, m, plain)?;
    meet(Met::Cleared, (refusal == 0 && before.gap > 0) as usize);
    count_of_both(m, plain)?;
    reading_of_both(m, plain)
}

fn power_on(prng: &mut Prng, case: u64) -> Outcome {
    let mut m = machine(prng);
    if case.is_multiple_of(2) {
        for field in 0..FIELDS {
            set(&mut m, field, prng.next() as u32);
        }
    }
    let mut plain = to_plain(&m);
    power_on_both(prng, &mut m, &mut plain)
}

/// Many events on one lent record, good and bad; compared after each. The plain
/// machine goes its own way: it counts every stray since its last power-on.
fn event_list(prng: &mut Prng, case: u64) -> Outcome {
    let mask = match case % 4 {
        0 | 1 => masks::lively(prng),
        2 => any_mask(prng),
        _ => masks::straying(prng),
    };
    // In half of the lists few power-ons, so that counts come to their end.
    let apart = pick(prng, &[40, 400]);
    let mut m = machine(prng);
    let mut plain = to_plain(&m);
    for _ in 0..prng.below(600) {
        if prng.below(apart) == 0 {
            power_on_both(prng, &mut m, &mut plain)?;
            continue;
        }
        let steps = pick(prng, &[1, 10, 100, 100, 2000]);
        let event = any_event(prng, steps);
        let length = if prng.below(30) == 0 { MASK - 1 } else { MASK };
        next_on_both(&mut m, &mut plain, event, &mask[..length])?;
        report_of_both(&m, REPORT)?;
    }
    next_on_both(&mut m, &mut plain, (plain::RUN, 65535, 0, 0, 0), &mask)
}

/// From power-on to 65,535 strays and on, by events of all kinds.
fn count_to_the_end(prng: &mut Prng, _: u64) -> Outcome {
    let mask = masks::round_in_the_gap(prng);
    let mut m = machine(prng);
    m.gap |= 1; // only a power-on makes it 0
    let mut plain = to_plain(&m);
    while plain.strays != 0 {
        power_on_both(prng, &mut m, &mut plain)?;
    }
    let most = pick(prng, &[300, 5000, 65535]);
    while plain.strays < 66_000 {
        let event = match prng.below(4) {
            0 => between(prng),
            1 => (plain::RES, 0, 0, 0, 0),
            _ => (plain::RUN, prng.below(most + 1) as u16, 0, 0, 0),
        };
        next_on_both(&mut m, &mut plain, event, &mask)?;
    }
    Ok(())
}

// Scripts

fn script_on_both(mask: &[u8], script: &[u8], room: usize) -> Outcome {
    let what = || format!("script {}\n  room {room}, mask {}", hex(script), hex(mask));
    let plain = packed::script(&plain::check_script(mask, script, room));
    same(
        || format!("check of {}", what()),
        library::check_script(mask, script, room),
        plain,
    )?;
    if room > 1 << 24 {
        return Ok(());
    }
    let mut out = Buffers::new(room);
    let lent = (mask.to_vec(), script.to_vec());
    let library = library::run_script(&lent.0, &lent.1, out.library());
    same(|| "mask after a script".into(), &lent.0[..], mask)?;
    same(|| "script after its run".into(), &lent.1[..], script)?;
    let plain = plain::run_script(mask, script, out.plain());
    same(
        || format!("answer of {}", what()),
        library,
        packed::script(&plain),
    )?;
    out.same(|| format!("reports of {}", what()))
}

fn room(prng: &mut Prng, records: usize) -> usize {
    let exact = REPORT * records;
    match prng.below(8) {
        0 => exact.saturating_sub(1),
        1 => prng.below(exact as u64 + 1) as usize,
        2 => exact + 1 + prng.below(100) as usize,
        3 => pick(
            prng,
            &[
                0,
                usize::MAX,
                usize::MAX - 47,
                1 << 32,
                1 << 63,
                (1 << 32) + exact,
            ],
        ),
        _ => exact,
    }
}

fn script_valid(prng: &mut Prng, case: u64) -> Outcome {
    let mask = if prng.below(30) == 0 {
        mask_of_wrong_length(prng)
    } else {
        any_mask(prng).to_vec()
    };
    let records = match case {
        0 => 0,
        1..=30 => 1 + case % 3,
        _ => pick(prng, &[1, 2, 3, 10, 40, 100]),
    };
    let steps = pick(prng, &[1, 10, 100, 1000]);
    let steps = if prng.below(200) == 0 { 65535 } else { steps };
    let script = if records == 0 {
        Vec::new()
    } else {
        script::valid(prng, records, steps).concat()
    };
    let room = room(prng, records as usize);
    script_on_both(&mask, &script, room)
}

fn script_damaged(prng: &mut Prng, _: u64) -> Outcome {
    let mask = if prng.below(30) == 0 {
        mask_of_wrong_length(prng)
    } else {
        any_mask(prng).to_vec()
    };
    let records = pick(prng, &[1, 2, 3, 5, 10, 30]);
    let mut script = script::valid(prng, records, 20);
    for _ in 0..pick(prng, &[1, 1, 1, 2, 3, 6]) {
        script::damage(prng, &mut script);
    }
    let room = room(prng, script.len());
    let mut script = script.concat();
    match prng.below(10) {
        0 => script.truncate(prng.below(script.len() as u64 + 1) as usize),
        1 => script.extend([0, 0, 6][..prng.below(4) as usize].iter()),
        _ => {}
    }
    script_on_both(&mask, &script, room)
}

fn script_longest(prng: &mut Prng, case: u64) -> Outcome {
    let mask = any_mask(prng);
    let mut records = script::longest(prng, case % 4 == 1);
    if case % 4 == 2 {
        script::damage(prng, &mut records);
    }
    let room = if case % 4 == 3 {
        room(prng, records.len())
    } else {
        REPORT * records.len()
    };
    let mut script = records.concat();
    if case % 8 == 4 {
        script.push(0);
    }
    script_on_both(&mask, &script, room)
}

// Texts

fn text_on_both(text: &[u8], length: usize) -> Outcome {
    let what = || {
        let shown = &text[..text.len().min(4000)];
        let shown = String::from_utf8_lossy(shown);
        format!("text of {} bytes into {length}\n{shown}\n", text.len())
    };
    let mut out = Buffers::new(length);
    let lent = text.to_vec();
    let library = library::assemble(&lent, out.library());
    let plain = plain_asm::assemble(text, out.plain());
    same(what, library, packed::text(&plain))?;
    out.same(what)?;
    same(|| "text after it was assembled".into(), &lent[..], text)
}

/// The same, and both have to write this mask.
fn text_to(text: &[u8], mask: &Mask) -> Outcome {
    let mut out = [0; MASK];
    let plain = plain_asm::assemble(text, &mut out);
    if plain.is_err() || out != *mask {
        let text = String::from_utf8_lossy(text);
        return Err(format!("plain alone: {plain:?}, or another mask\n{text}"));
    }
    text_on_both(text, MASK)
}

fn text_given(_: &mut Prng, case: u64) -> Outcome {
    let (text, number, line) = match texts::ACCEPTED.get(case as usize) {
        Some((text, code)) => {
            text_to(text.as_bytes(), &texts::mask_of(code))?;
            (*text, 0, 0)
        }
        None => texts::REFUSED[case as usize - texts::ACCEPTED.len()],
    };
    text_on_both(text.as_bytes(), MASK)?;
    let safe = match ht1130::assembled(text.as_bytes()) {
        Ok(_) => (0, 0),
        Err(refused) => (refused.refusal.number(), refused.line),
    };
    same(|| text.into(), safe, (number, line))
}

fn text_accepted(prng: &mut Prng, _: u64) -> Outcome {
    let lines = pick(prng, &[1, 2, 5, 20, 60]);
    let (lines, mask) = texts::program(prng, lines);
    text_to(&texts::joined(&lines), &mask)
}

fn text_damaged(prng: &mut Prng, _: u64) -> Outcome {
    let lines = pick(prng, &[1, 2, 5, 20, 40]);
    let (mut lines, _) = texts::program(prng, lines);
    for _ in 0..pick(prng, &[1, 1, 1, 2, 3, 6]) {
        texts::damage(prng, &mut lines);
    }
    let length = if prng.below(20) == 0 {
        pick(prng, &[0, 1, 4095, 4097, 8192, 65536 + 4096])
    } else {
        MASK
    };
    text_on_both(&texts::joined(&lines), length)
}

/// Up to one byte too many, and far too many.
fn text_longest(prng: &mut Prng, case: u64) -> Outcome {
    let longest = plain_asm::TEXT;
    let (mut text, mask) = texts::of_length(prng, longest);
    text_to(&text, &mask)?;
    match case % 4 {
        0 => text.push(pick(prng, b" \n?")),
        1 => text.resize(longest + 1 + prng.below(70_000) as usize, b' '),
        2 => text.truncate(longest - prng.below(40_000) as usize),
        _ => {
            let at = prng.below(longest as u64) as usize;
            text[at] = prng.byte();
        }
    }
    text_on_both(&text, pick(prng, &[MASK, MASK, MASK, 4095]))
}

// Readings

/// Notes what a picture of nibbles came to, and why it was refused.
fn note_picture(picture: &[u8], read: &Result<Reading, plain_glass::GlassRefusal>) {
    meet(Met::Pictures, 1);
    let glass: Vec<Code> = picture
        .chunks_exact(2)
        .map(|two| two[0] | two[1] << 4)
        .collect();
    let minus = plain_glass::minus();
    let why = match *read {
        Err((2, _)) => Met::NotEight,
        Err((3, _)) => Met::NoNibble,
        Err((_, digit)) => {
            meet(
                [Met::BadAt0, Met::BadAt1, Met::BadAt2, Met::BadAt3][digit as usize],
                1,
            );
            let (before, code) = (&glass[..digit as usize], glass[digit as usize]);
            let dark = before.iter().all(|&code| code == BLANK);
            match code {
                BLANK => Met::LateBlank,
                _ if code == minus && dark => Met::LastMinus,
                _ if code == minus => Met::LateMinus,
                POINT => Met::PointedBlank,
                _ if code == minus | POINT => Met::PointedMinus,
                _ if (0..10).any(|n| plain_glass::shape(n) | POINT == code) => Met::SecondPoint,
                _ => Met::NoShape,
            }
        }
        Ok(Reading::Dark) => Met::Dark,
        Ok(Reading::Number { value, places }) => {
            meet(Met::Negative, (value < 0) as usize);
            meet(
                Met::MinusZeros,
                (value == 0 && glass.contains(&minus)) as usize,
            );
            let digits: Vec<_> = glass
                .iter()
                .filter(|&&code| code != BLANK && code != minus)
                .collect();
            let leads = digits.len() > 1 && *digits[0] == plain_glass::shape(0);
            meet(Met::LeadingZeros, leads as usize);
            meet(Met::LastPoints, (glass[DIGITS - 1] & POINT != 0) as usize);
            match places {
                0 => {}
                1 => meet(Met::OnePlace, 1),
                2 => meet(Met::TwoPlaces, 1),
                _ => meet(Met::ThreePlaces, 1),
            }
            Met::Numbers
        }
    };
    meet(why, 1);
}

/// A picture of any length and nibbles, by number and by the safe function.
fn picture_of_both(picture: &[u8]) -> Outcome {
    let what = || format!("reading of the picture {}", hex(picture));
    let lent = picture.to_vec();
    let plain = plain_glass::read(picture);
    same(what, library::glass_read(&lent), packed::reading(&plain))?;
    let safe = library::plain_reading(ht1130::glass_read(&lent));
    same(what, safe, plain)?;
    note_picture(picture, &plain);
    same(|| "picture after it was read".into(), &lent[..], picture)
}

/// Three digits by chance, and one that runs over all values, at each place.
fn pictures_read(prng: &mut Prng, _: u64) -> Outcome {
    for place in 0..DIGITS {
        let mut glass = pictures::any(prng);
        for code in 0..=255 {
            glass[place] = code;
            picture_of_both(&plain_glass::picture_of(glass))?;
        }
    }
    Ok(())
}

/// 2, then 3, then 16, whatever else holds.
fn pictures_refused(prng: &mut Prng, _: u64) -> Outcome {
    let picture = plain_glass::picture_of(pictures::any(prng));
    for at in 0..PICTURE {
        for nibble in [16, 17, 31, 32, 127, 128, 240, 255, 16 | prng.byte()] {
            let mut picture = picture;
            picture[at] = nibble;
            picture_of_both(&picture)?;
        }
    }
    let mut longer = [&picture[..], &picture[..]].concat();
    for length in [0, 1, 2, 6, 7, 9, 10, 15, 16] {
        longer[prng.below(16) as usize] = prng.byte();
        picture_of_both(&longer[..length])?;
    }
    let length = pick(prng, &[32, 48, 166, 256 + 8, 4096, 65536 + 8]);
    picture_of_both(&vec![0; length])
}

/// A reading drawn to so many bytes, by number and by the safe function; what fits is
/// read back.
fn drawn_by_both(dark: u8, value: i32, places: u8, length: usize) -> Outcome {
    let reading = match dark {
        0 => Reading::Number { value, places },
        _ => Reading::Dark,
    };
    let what = || format!("dark {dark}, value {value}, places {places} drawn to {length} bytes");
    let mut picture = Buffers::new(length);
    let library = library::glass_draw(dark, value, places, picture.library());
    let plain = plain_glass::draw(reading, picture.plain());
    same(what, library, packed::drawn(&plain))?;
    picture.same(what)?;

    let (lent, text) = match reading {
        Reading::Dark => (ht1130::Reading::Dark, "dark".into()),
        Reading::Number { value, places } => (
            ht1130::Reading::Number { value, places },
            plain_glass::written(value, places),
        ),
    };
    same(what, lent.to_string(), text)?;
    picture.library().fill(0x5A);
    picture.plain().fill(0x5A);
    let safe = ht1130::glass_draw(lent, picture.library());
    let safe = safe.map_err(|refused| (refused.refusal.number(), refused.digit));
    same(what, safe, plain_glass::draw(reading, picture.plain()))?;
    picture.same(what)?;

    let minus = (dark == 0 && value < 0) as usize;
    match plain {
        Err((2, _)) => meet(Met::NoPicture, 1),
        Err(_) => {
            let text = plain_glass::written(value, places);
            let taken = text.bytes().filter(|&byte| byte != b'.').count();
            meet(Met::NoFit, 1);
            meet(Met::NoFitForMinus, (taken - minus == DIGITS) as usize);
        }
        Ok(()) => {
            let back = library::plain_reading(ht1130::glass_read(picture.library()));
            same(|| format!("read back: {}", what()), back, Ok(reading))?;
            let drawn = if dark == 0 {
                Met::Drawn
            } else {
                Met::DrawnDark
            };
            meet(drawn, 1);
            meet(Met::DrawnNegative, minus);
        }
    }
    Ok(())
}

/// Values from -1,100 to 11,000.
const LEAST_VALUE: i32 = -1_100;
const DRAWN_VALUES: u64 = 12_101;

fn value_drawn(_: &mut Prng, case: u64) -> Outcome {
    let value = LEAST_VALUE + case as i32;
    (0..=5).try_for_each(|places| drawn_by_both(0, value, places, PICTURE))
}

fn reading_drawn(prng: &mut Prng, case: u64) -> Outcome {
    let dark = match case % 4 {
        0 => prng.byte(),
        1 => pick(prng, &[1, 2, 128, 255]),
        _ => 0,
    };
    let places = match prng.below(3) {
        0 => prng.byte(),
        _ => prng.byte() % 6,
    };
    let length = if prng.below(4) == 0 {
        pick(prng, &[0, 1, 4, 7, 9, 16, 48, 256 + 8, 65536 + 8])
    } else {
        PICTURE
    };
    drawn_by_both(dark, pictures::value(prng), places, length)
}

/// What is seen of a machine, by number and by the safe function.
fn reading_of_both(m: &ht1130::Machine, plain: &plain::Machine) -> Outcome {
    let lent = *m;
    let reading = plain_glass::reading(plain);
    let what = || format!("reading of {m:X?}");
    same(what, library::reading(&lent), packed::reading(&reading))?;
    let safe = library::plain_reading(ht1130::reading(&lent));
    same(what, safe, reading)?;
    match reading {
        Err((5, _)) => meet(Met::SeenRefused, 1),
        Err(_) => meet(Met::SeenBad, 1),
        Ok(Reading::Number { .. }) => meet(Met::SeenNumbers, 1),
        Ok(Reading::Dark) => {}
    }
    same(|| "machine after its reading".into(), lent, *m)
}

/// A machine with a picture on its glass, through a few events.
fn machine_read(prng: &mut Prng, case: u64) -> Outcome {
    let mut m = machine(prng);
    let picture = plain_glass::picture_of(pictures::any(prng));
    m.memory[128..128 + PICTURE].copy_from_slice(&picture);
    if case.is_multiple_of(8) {
        let field = prng.below(FIELDS);
        set(&mut m, field, prng.next() as u32);
    }
    let mut plain = to_plain(&m);
    reading_of_both(&m, &plain)?;
    let otherwise = |changed: plain::Machine| {
        plain.in_range() && plain_glass::reading(&changed) != plain_glass::reading(&plain)
    };
    let (mut awake, mut on_four) = (plain, plain);
    awake.halted = 0;
    on_four.options.commons = 4;
    meet(Met::SeenAsleep, otherwise(awake) as usize);
    meet(Met::SeenOnThree, otherwise(on_four) as usize);
    // HALT, or a few steps that leave most of the glass as it is.
    let asleep = [0x37, 0x3E].repeat(MASK / 2);
    let mask = masks::lively(prng);
    for _ in 0..6 {
        let steps = pick(prng, &[1, 3, 20]);
        let event = any_event(prng, steps);
        let mask = pick(prng, &[&asleep[..], &mask[..]]);
        next_on_both(&mut m, &mut plain, event, mask)?;
    }
    Ok(())
}
