//! `compare [CALLS] [SEED]`: rpds's own map beside the definitions over plain trees, call by call.
//! Stops with a message and exit status 1 at the first difference.
#![forbid(unsafe_code)]

mod counts;
mod differences;
mod edits;
mod exhaustive;
mod histories;
mod laws;
mod lookups;
mod orders;
mod outcome;
mod ranges;
mod version;

use common::quiet;
use common::random::Random;
use counts::Counts;
use outcome::Outcome;
use std::panic;
use std::process::ExitCode;

const CALLS: u64 = 120_000;
const SEED: u64 = 1;

fn main() -> ExitCode {
    let words: Vec<String> = std::env::args().skip(1).collect();
    let Some((calls, seed)) = arguments(&words) else {
        eprintln!("usage: compare [CALLS] [SEED]");
        return ExitCode::FAILURE;
    };
    quiet::install();
    // A panic of rpds's where none is expected is a difference too; its own message has been printed by then.
    let outcome =
        panic::catch_unwind(|| run(calls, seed)).unwrap_or(Err(String::from("a panic where none is expected")));
    match outcome {
        Ok(counts) => {
            print!("{counts}");
            ExitCode::SUCCESS
        }
        Err(message) => {
            eprintln!("DIFFERENCE (seed {seed}): {message}");
            ExitCode::FAILURE
        }
    }
}

fn arguments(words: &[String]) -> Option<(u64, u64)> {
    match words {
        [] => Some((CALLS, SEED)),
        [calls] => Some((calls.parse().ok()?, SEED)),
        [calls, seed] => Some((calls.parse().ok()?, seed.parse().ok()?)),
        _ => None,
    }
}

fn run(calls: u64, seed: u64) -> Outcome<Counts> {
    let mut counts = Counts::default();
    let mut random = Random::new(seed);
    exhaustive::run(&mut random, &mut counts)?;
    histories::run(calls, &mut random, &mut counts)?;
    Ok(counts)
}
