//! A host in Rust: it checks a mask, lists the way to a fault if there is one or
//! else says how long an edge can be held in either handler, runs a script, and
//! prints a line for each report.
//!
//!     check_and_run MASK SCRIPT

use ht1130::{Bound, Pair, Verdict, MASK, REPORT, WAY};
use std::error::Error;
use std::process::ExitCode;

fn main() -> ExitCode {
    let arguments: Vec<_> = std::env::args_os().skip(1).collect();
    let [mask, script] = &arguments[..] else {
        eprintln!("usage: check_and_run MASK SCRIPT");
        return ExitCode::from(2);
    };
    let done = std::fs::read(mask)
        .and_then(|mask| Ok((mask, std::fs::read(script)?)))
        .map_err(Box::<dyn Error>::from)
        .and_then(|(mask, script)| check_and_run(&mask, &script));
    match done {
        Ok(()) => ExitCode::SUCCESS,
        Err(error) => {
            eprintln!("check_and_run: {error}");
            ExitCode::FAILURE
        }
    }
}

fn check_and_run(mask: &[u8], script: &[u8]) -> Result<(), Box<dyn Error>> {
    let mut marks = [0; MASK];
    match ht1130::check(mask, &mut marks)? {
        Verdict::Passed => {
            println!("mask passed");
            print_bound(mask, 4)?; // the timer's handler
            print_bound(mask, 8)?; // the edge's
        }
        Verdict::Failed {
            fault,
            address,
            level,
        } => {
            println!("mask may fault with {fault} at {address:03X} in level {level}, by this way:");
            print_way(mask)?;
        }
    }
    for level in 0..3 {
        let reached = marks.iter().filter(|&mark| mark >> level & 1 == 1).count();
        println!("level {level}: {reached} addresses");
    }

    for report in ht1130::reports(mask, script)? {
        print_report(&report);
    }
    Ok(())
}

/// The most cycles from the start of a handler until the next edge can be taken.
fn print_bound(mask: &[u8], vector: u16) -> Result<(), ht1130::Refusal> {
    print!("bound at {vector:03X} level 2: ");
    match ht1130::bound(mask, vector, 2)? {
        Bound::NotReached => println!("not reached"),
        Bound::NoBound => println!("no bound"),
        Bound::Cycles(cycles) => println!("{cycles}"),
    }
    Ok(())
}

fn print_way(mask: &[u8]) -> Result<(), ht1130::Refusal> {
    let mut list = [0; WAY];
    let count = ht1130::way(mask, &mut list)?;
    for Pair { address, level } in ht1130::pairs(&list[..3 * count]) {
        println!("{address:03X} level {level}");
    }
    Ok(())
}

fn print_report(report: &[u8; REPORT]) {
    let pc = u16::from_le_bytes([report[4], report[5]]);
    let cycles = u32::from_le_bytes([report[6], report[7], report[8], report[9]]);
    let [level, halted, fault, pa, channel, mode] = report[10..16] else {
        unreachable!("six bytes")
    };
    let display: String = report[16..]
        .iter()
        .map(|nibble| format!("{nibble:X}"))
        .collect();
    println!("PC {pc:03X} cycles {cycles} level {level} halted {halted} fault {fault} PA {pa:X} sound {channel}/{mode} {display}");
}
