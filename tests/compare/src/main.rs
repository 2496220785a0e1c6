//! The longer runs: `cargo run --release -- MINUTES [SEED]`, or `days`.

use compare::chance::{self, Until};
use compare::days;
use std::process::ExitCode;
use std::time::{Duration, Instant, SystemTime, UNIX_EPOCH};

fn main() -> ExitCode {
    let arguments: Vec<String> = std::env::args().skip(1).collect();
    let arguments: Vec<&str> = arguments.iter().map(String::as_str).collect();
    let numbers: Result<Vec<u64>, _> = arguments
        .iter()
        .skip_while(|&&word| word == "case")
        .map(|word| word.parse())
        .collect();
    let done = match (&arguments[..], numbers.as_deref()) {
        (["case", ..], Ok(&[seed, number])) => one_case(seed, number),
        (["days"], _) => all_days(),
        (_, Ok(&[minutes])) => run(minutes, seed_by_the_clock()),
        (_, Ok(&[minutes, seed])) => run(minutes, seed),
        _ => Err("usage: compare MINUTES [SEED] | case SEED NUMBER | days".to_string()),
    };
    match done {
        Ok(()) => ExitCode::SUCCESS,
        Err(message) => {
            eprintln!("{message}");
            ExitCode::FAILURE
        }
    }
}

fn seed_by_the_clock() -> u64 {
    SystemTime::now()
        .duration_since(UNIX_EPOCH)
        .map_or(0, |since| since.as_secs())
}

fn run(minutes: u64, seed: u64) -> Result<(), String> {
    println!("seed {seed}, {minutes} minutes");
    let end = Instant::now() + Duration::from_secs(60 * minutes);
    let tally = chance::run(seed, Until::Time(end))?;
    for ((call, code), count) in &tally.codes {
        println!("{call:?} code {code}: {count}");
    }
    for (case, count) in &tally.rows {
        println!("{case}: {count}");
    }
    for ((call, case), count) in &tally.reals {
        println!("{call:?} {case}: {count}");
    }
    for ((call, case), count) in &tally.dates {
        println!("{call:?} {case:?}: {count}");
    }
    for ((call, case), count) in &tally.zones {
        println!("{call:?} {case:?}: {count}");
    }
    for (case, count) in &tally.sessions {
        println!("{case:?}: {count}");
    }
    for (case, count) in &tally.takings {
        println!("{case:?}: {count}");
    }
    for (code, count) in &tally.histories {
        println!("in histories code {code}: {count}");
    }
    for (run, count) in chance::NO_KINDS.iter().zip(tally.no_kinds) {
        println!("no row is of kind {run:?}: {count}");
    }
    let calls = tally.codes.values().chain(tally.histories.values());
    println!("{} passed, 0 failed", calls.sum::<u64>());
    Ok(())
}

/// Every day of every year, taken.
fn all_days() -> Result<(), String> {
    println!("{} passed, 0 failed", days::check_all()?);
    Ok(())
}

fn one_case(seed: u64, number: u64) -> Result<(), String> {
    let (code, place, length) = chance::case(seed, number).check()?;
    println!("no difference: {code} {place} {length}");
    let history = chance::check_history(seed, number)?.values().sum::<u64>();
    println!("{} passed, 0 failed", 1 + history);
    Ok(())
}
