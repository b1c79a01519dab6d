//! Long histories of all eighteen calls, on arenas of every size, that fill the nodes and the slots
//! and empty them again.
use crate::audits;
use crate::choice::History;
use crate::counts::Counts;
use crate::pair::Pair;
use crate::walks;
use common::keys::Keys;
use common::random::Random;
use library::Subject;
use library::call::{Answer, Call};
use library::outcome::{Outcome, same};
use seen::Map;

/// N, V, how many calls a history has, and how many entries it starts with.
struct Plan {
    n: u32,
    v: u32,
    calls: u64,
    filled: usize,
}

const PLANS: [Plan; 21] = [
    Plan { n: 1, v: 1, calls: 400, filled: 0 },
    Plan { n: 1, v: 3, calls: 800, filled: 0 },
    Plan { n: 2, v: 2, calls: 800, filled: 0 },
    Plan { n: 5, v: 4, calls: 2000, filled: 0 },
    Plan { n: 8, v: 3, calls: 2000, filled: 0 },
    Plan { n: 15, v: 2, calls: 2000, filled: 0 },
    Plan { n: 16, v: 8, calls: 2000, filled: 0 },
    Plan { n: 31, v: 5, calls: 3000, filled: 0 },
    Plan { n: 64, v: 32, calls: 3000, filled: 0 },
    Plan { n: 120, v: 6, calls: 3000, filled: 0 },
    Plan { n: 0, v: 0, calls: 3000, filled: 0 },
    Plan { n: 120, v: 32, calls: 2000, filled: 40 },
    Plan { n: 255, v: 3, calls: 1500, filled: 0 },
    Plan { n: 255, v: 8, calls: 2000, filled: 130 },
    Plan { n: 300, v: 32, calls: 1500, filled: 200 },
    Plan { n: 700, v: 16, calls: 1000, filled: 500 },
    Plan { n: 2047, v: 1, calls: 100, filled: 0 },
    Plan { n: 2047, v: 2, calls: 300, filled: 2020 },
    Plan { n: 2047, v: 3, calls: 300, filled: 1900 },
    Plan { n: 2047, v: 8, calls: 300, filled: 1850 },
    Plan { n: 2047, v: 32, calls: 300, filled: 1700 },
];

/// The most nodes of an arena.
pub const LARGEST: u32 = 2047;

/// How much of the plans is run.
pub struct Extent {
    /// How often every plan is run with every kind of keys.
    pub rounds: u64,
    /// The part of its plan's calls that each history has.
    pub share: u64,
    /// The most nodes of the plans that are run.
    pub largest: u32,
}

pub fn run<S: Subject + Clone>(subject: &S, extent: &Extent, random: &mut Random, counts: &mut Counts) -> Outcome {
    for _ in 0..extent.rounds {
        for keys in Keys::ALL {
            for plan in PLANS.iter().filter(|plan| plan.n <= extent.largest) {
                go(subject.clone(), plan, keys, plan.calls / extent.share, random, counts)?;
            }
        }
    }
    Ok(())
}

fn go<S: Subject>(
    subject: S,
    plan: &Plan,
    keys: Keys,
    length: u64,
    random: &mut Random,
    counts: &mut Counts,
) -> Outcome {
    // The plan without a size is of any small one.
    let (n, v) = match (plan.n, plan.v) {
        (0, _) => (1 + random.below(120) as u32, 1 + random.below(32) as u32),
        sizes => sizes,
    };
    let place = |calls: u64, message: String| format!("N {n}, V {v}, call {calls} of the history: {message}");
    let mut pair = Pair::start(subject, n, v, random.word(), counts).map_err(|message| place(0, message))?;
    let mut history = History::new(keys, n as usize, plan.filled > 0);
    if plan.filled > 0 {
        fill(&mut pair, plan.filled, &mut history, random, counts).map_err(|message| place(0, message))?;
    }
    for call in 1..=length {
        history.call(&mut pair, random, counts).map_err(|message| place(call, message))?;
    }
    finish(&mut pair, random, counts).map_err(|message| place(length, message))?;
    counts.histories += 1;
    counts.calls += length;
    Ok(())
}

/// A version that the history ends with is walked whole, however many entries it has, and audited
/// beside the next one, however many differences they have.
fn finish<S: Subject>(pair: &mut Pair<S>, random: &mut Random, counts: &mut Counts) -> Outcome {
    let held = pair.model.held();
    if held.is_empty() {
        return Ok(());
    }
    let place = random.below(held.len());
    walks::compare_all(pair, held[place], random, counts)?;
    audits::compare(pair, held[place], held[(place + 1) % held.len()], counts)
}

/// Puts entries in by inserts and releases of which only the answers are compared; the version that they end with is compared whole.
fn fill<S: Subject>(
    pair: &mut Pair<S>,
    entries: usize,
    history: &mut History,
    random: &mut Random,
    counts: &mut Counts,
) -> Outcome {
    let (mut map, mut slot) = (Map::new(), 0);
    ask(pair, Call::New, Answer::Word(slot), counts)?;
    while map.size() < entries {
        let (key, value) = (history.new_key(random), random.below(5) as u32);
        map.insert_mut(key, value);
        ask(pair, Call::Insert { s: slot, key, value }, Answer::Word(1 - slot), counts)?;
        ask(pair, Call::Release { s: slot }, Answer::Done, counts)?;
        slot = 1 - slot;
    }
    history.newest = slot;
    pair.adopt(slot, map, counts)
}

fn ask<S: Subject>(pair: &mut Pair<S>, call: Call, expected: Answer, counts: &mut Counts) -> Outcome {
    let found = pair.subject.call(&mut pair.lent, call);
    counts.count(call, found);
    same("answer while the arena is filled", expected, found)
}
