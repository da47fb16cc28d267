//! Compares the proved library with a plain engine, assembler and glass: what they do, and how
//! fast.

mod diff;
mod library;
mod masks;
mod pictures;
mod plain;
mod plain_asm;
mod plain_glass;
mod prng;
mod routines;
mod script;
mod speed;
mod texts;

use std::process::ExitCode;

const USAGE: &str = "usage: bench diff [--seed N] [--cases N] [--whole] | speed | all [--seed N] [--cases N] [--whole]
       bench count plain|library MASK RUNS    (Runs of 10,000 steps and nothing else)";

struct Arguments {
    diff: bool,
    speed: bool,
    seed: u64,
    cases: u64,
    whole: bool,
}

fn arguments() -> Option<Arguments> {
    let mut words = std::env::args().skip(1);
    let (diff, speed) = match words.next()?.as_str() {
        "diff" => (true, false),
        "speed" => (false, true),
        "all" => (true, true),
        _ => return None,
    };
    let mut arguments = Arguments {
        diff,
        speed,
        seed: 1130,
        cases: diff::CASES,
        whole: false,
    };
    while let Some(word) = words.next() {
        let mut value = || words.next()?.parse().ok();
        match word.as_str() {
            "--seed" if diff => arguments.seed = value()?,
            "--cases" if diff => arguments.cases = value()?,
            "--whole" if diff => arguments.whole = true,
            _ => return None,
        }
    }
    Some(arguments)
}

/// Whether `count` and its words did their work; None where they are other words.
fn count() -> Option<bool> {
    let words: Vec<String> = std::env::args().skip(1).collect();
    let [first, engine, mask, runs] = words.as_slice() else {
        return None;
    };
    let runs = runs.parse().ok().filter(|_| first == "count")?;
    Some(speed::count(engine, mask, runs))
}

fn main() -> ExitCode {
    if count() == Some(true) {
        return ExitCode::SUCCESS;
    }
    let Some(arguments) = arguments() else {
        eprintln!("{USAGE}");
        return ExitCode::from(2);
    };
    if arguments.diff && !diff::run(arguments.seed, arguments.cases, arguments.whole) {
        return ExitCode::FAILURE;
    }
    if arguments.speed {
        speed::run();
    }
    ExitCode::SUCCESS
}
