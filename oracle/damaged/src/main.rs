//! `damaged short|long [SEED] [kinds]`: damaged arenas given to the library and to the checker. Stops with a message and exit
//! status 1 at the first difference. With `kinds` it shows what each kind of damage came to. `damaged faults [SEED]`: the same with
//! faults put in, each of which has to be found. `damaged tiny [SEED]`: a few arenas, for a memory checker.
#![forbid(unsafe_code)]

mod bases;
mod counts;
mod damage;
mod damages;
mod examine;
mod faults;
mod kinds;
mod plain;
mod repair;
mod sweep;

use common::quiet;
use common::random::Random;
use counts::Counts;
use examine::Examiner;
use library::Library;
use library::lent;
use library::outcome::Outcome;
use std::panic;
use std::process::ExitCode;
use std::time::Instant;
use sweep::Extent;

const TINY: Extent = Extent { flips: &[(1, 1, 3, 1), (8, 3, 40, 4)], damaged: 1_200, random: 500, every_kind: false };
const SHORT: Extent =
    Extent { flips: &[(1, 1, 3, 1), (8, 3, 40, 1), (40, 8, 120, 1)], damaged: 20_000, random: 5_000, every_kind: true };
const LONG: Extent = Extent {
    flips: &[
        (1, 1, 3, 1),
        (3, 2, 12, 1),
        (8, 3, 40, 1),
        (15, 4, 60, 1),
        (40, 8, 120, 1),
        (120, 32, 300, 1),
        (255, 3, 500, 1),
        (2047, 3, 2500, 40),
    ],
    damaged: 1_300_000,
    random: 200_000,
    every_kind: true,
};

fn main() -> ExitCode {
    let words: Vec<String> = std::env::args().skip(1).collect();
    let (words, table) = match &words[..] {
        [before @ .., last] if last == "kinds" => (before, true),
        all => (all, false),
    };
    let Some((what, seed)) = arguments(words) else {
        eprintln!("usage: damaged tiny|short|long|faults [SEED] [kinds]");
        return ExitCode::FAILURE;
    };
    quiet::install();
    let outcome = panic::catch_unwind(|| match what {
        "tiny" => {
            lent::without_guards();
            run(&TINY, seed, table)
        }
        "short" => run(&SHORT, seed, table),
        "long" => run(&LONG, seed, table),
        _ => faults::run(&SHORT, seed),
    });
    match outcome.unwrap_or(Err(String::from("a panic where none is expected"))) {
        Ok(()) => ExitCode::SUCCESS,
        Err(message) => {
            eprintln!("DIFFERENCE (seed {seed}): {message}");
            ExitCode::FAILURE
        }
    }
}

fn arguments(words: &[String]) -> Option<(&str, u64)> {
    let (what, seed) = match words {
        [what] => (what, 1),
        [what, seed] => (what, seed.parse().ok()?),
        _ => return None,
    };
    ["tiny", "short", "long", "faults"].contains(&what.as_str()).then_some((what, seed))
}

fn run(extent: &Extent, seed: u64, table: bool) -> Outcome {
    let (start, mut counts) = (Instant::now(), Counts::default());
    let mut examiner = Examiner { subject: Library, left_out: None };
    sweep::run(&mut examiner, extent, &mut Random::new(seed), &mut counts)?;
    print!("{counts}");
    if table {
        print!("{}", counts.kinds);
    }
    if extent.every_kind {
        counts.kinds.each_spoils()?;
    }
    println!("0 differences; {:.0} s", start.elapsed().as_secs_f64());
    Ok(())
}
