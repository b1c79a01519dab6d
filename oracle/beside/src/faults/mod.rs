//! Faults put into the library's answers and words on purpose: each has to be found, or the comparison is blind there.
mod answers;
mod differences;
mod words;

use crate::counts::Counts;
use crate::histories::{self, Extent, LARGEST};
use common::quiet;
use common::random::Random;
use library::call::{Answer, Call};
use library::lent::Lent;
use library::outcome::Outcome;
use library::{Library, Subject};

/// What a fault makes of a call: the words before it, the words after it, and the right answer; it gives the wrong one.
type Spoil = fn(&[u32], &mut Lent, Call, Answer) -> Answer;

/// The histories in which a fault has to be found.
const EXTENT: Extent = Extent { rounds: 2, share: 5, largest: LARGEST };

#[derive(Clone)]
struct Faulty {
    spoil: Spoil,
}

impl Subject for Faulty {
    fn call(&mut self, lent: &mut Lent, call: Call) -> Answer {
        let before = lent.words().to_vec();
        let answer = Library.call(lent, call);
        (self.spoil)(&before, lent, call, answer)
    }
}

pub fn run(seed: u64) -> Outcome {
    let faults = [answers::FAULTS, words::FAULTS, differences::FAULTS].concat();
    let mut missed = Vec::new();
    for (name, spoil) in &faults {
        let (mut outcome, mut counts) = (Ok(()), Counts::default());
        let panics = quiet::panics(|| {
            outcome = histories::run(&Faulty { spoil: *spoil }, &EXTENT, &mut Random::new(seed), &mut counts);
        });
        match outcome {
            Ok(()) => missed.push(if panics { format!("{name} (a panic)") } else { String::from(*name) }),
            Err(message) => println!("found after {} calls: {name}: {}", counts.library_calls(), short(&message)),
        }
    }
    println!("{} faults put in, {} found", faults.len(), faults.len() - missed.len());
    if missed.is_empty() { Ok(()) } else { Err(format!("not found: {missed:?}")) }
}

fn short(message: &str) -> String {
    message.chars().take(240).collect()
}
