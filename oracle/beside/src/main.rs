//! `beside tiny|short|long [SEED]`: the library beside rpds's own map, call by call. Stops with a message and exit status 1 at the
//! first difference. `beside faults [SEED]`: the same with faults put in, each of which has to be found. `beside histories [SEED]`: the histories of `long` alone.
#![forbid(unsafe_code)]

mod audits;
mod choice;
mod counts;
mod exhaustive;
mod faults;
mod frame;
mod histories;
mod looks;
mod merge;
mod model;
mod pair;
mod twins;
mod walks;

use common::quiet;
use common::random::Random;
use counts::Counts;
use histories::{Extent, LARGEST};
use library::Library;
use library::lent::without_guards;
use library::outcome::{Outcome, holds};
use std::panic;
use std::process::ExitCode;
use std::time::Instant;

const WORDS: [&str; 5] = ["tiny", "short", "long", "histories", "faults"];

/// N and the greatest length of the sequences of an exhaustive search.
type Search = (u32, usize);

/// Searches and histories, and how many difference steps they have to make together.
struct Part {
    searches: &'static [Search],
    histories: Extent,
    least_difference_steps: u64,
}

const SHORT: Part = Part {
    searches: &[(8, 5), (40, 5)],
    histories: Extent { rounds: 1, share: 5, largest: LARGEST },
    least_difference_steps: 300_000,
};

const LONG: Part = Part {
    searches: &[(8, 7), (40, 7)],
    histories: Extent { rounds: 8, share: 1, largest: LARGEST },
    least_difference_steps: 3_000_000,
};

const HISTORIES: Part = Part { searches: &[], ..LONG };

/// For valgrind, under which the large arenas would take minutes.
const TINY: Part = Part {
    searches: &[(8, 3)],
    histories: Extent { rounds: 1, share: 20, largest: 31 },
    least_difference_steps: 10_000,
};

fn main() -> ExitCode {
    let words: Vec<String> = std::env::args().skip(1).collect();
    let Some((what, seed)) = arguments(&words) else {
        eprintln!("usage: beside {} [SEED]", WORDS.join("|"));
        return ExitCode::FAILURE;
    };
    quiet::install();
    let outcome = panic::catch_unwind(|| match what {
        "tiny" => {
            without_guards();
            compare(&TINY, seed)
        }
        "short" => compare(&SHORT, seed),
        "long" => compare(&LONG, seed),
        "histories" => compare(&HISTORIES, seed),
        _ => faults::run(seed),
    });
    match outcome.unwrap_or(Err(String::from("a panic where none is expected"))) {
        Ok(()) => ExitCode::SUCCESS,
        Err(message) => {
            eprintln!("DIFFERENCE (seed {seed}): {message}");
            ExitCode::FAILURE
        }
    }
}

fn arguments(words: &[String]) -> Option<(&str, u64)> {
    let (what, seed) = match words {
        [what] => (what, 1),
        [what, seed] => (what, seed.parse().ok()?),
        _ => return None,
    };
    WORDS.contains(&what.as_str()).then_some((what, seed))
}

fn compare(part: &Part, seed: u64) -> Outcome {
    let steps = search(part.searches, seed)? + follow(&part.histories, seed)?;
    println!("{steps} difference steps, {} at the least", part.least_difference_steps);
    let enough = steps >= part.least_difference_steps;
    holds("there are as many difference steps as there have to be", enough)?;
    println!("0 differences");
    Ok(())
}

/// Gives how many difference steps were made.
fn search(searches: &[Search], seed: u64) -> Outcome<u64> {
    let (mut random, mut steps) = (Random::new(seed), 0);
    for (n, length) in searches {
        let (start, mut counts) = (Instant::now(), Counts::default());
        let sequences = exhaustive::run(&Library, *n, *length, &mut random, &mut counts)?;
        println!(
            "all sequences of up to {length} calls, N {n}, V 3: {:?} by length, of which accepted throughout",
            sequences.covered
        );
        println!("{:?}; {:.0} s", sequences.gone_on, start.elapsed().as_secs_f64());
        print!("{counts}");
        steps += counts.difference_steps();
    }
    Ok(steps)
}

/// Gives how many difference steps were made.
fn follow(extent: &Extent, seed: u64) -> Outcome<u64> {
    let (start, mut counts) = (Instant::now(), Counts::default());
    histories::run(&Library, extent, &mut Random::new(seed), &mut counts)?;
    println!("{} calls in {} histories; {:.0} s", counts.calls, counts.histories, start.elapsed().as_secs_f64());
    print!("{counts}");
    if extent.largest == LARGEST {
        counts.demand_full()?;
    }
    Ok(counts.difference_steps())
}
