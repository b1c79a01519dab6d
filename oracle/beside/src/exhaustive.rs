//! Every sequence of calls up to a length, over three keys and three slots, by depth-first search on copies of the arena.
//!
//! A call that is refused, or only reads, is found to change no word, so what follows it is what follows without it: only accepted
//! calls that write are gone on from. At every arena reached, all calls of the alphabet are made and compared.
use crate::audits;
use crate::counts::Counts;
use crate::pair::Pair;
use crate::walks;
use common::random::Random;
use library::Subject;
use library::call::{Answer, Bound, Call, Differences, UNBOUNDED, Walk};
use library::outcome::Outcome;

const KEYS: [u32; 3] = [10, 20, 30];

/// A key below, between and above the others is looked up too.
const OTHERS: [u32; 3] = [0, 15, u32::MAX];

/// Slots 0 to 2, and 3, which is one too many.
const SLOTS: std::ops::Range<u32> = 0..4;
const V: u32 = 3;

/// How many sequences there were, by their length.
#[derive(Default)]
pub struct Sequences {
    /// Accepted calls that write, gone on from.
    pub gone_on: Vec<u64>,
    /// All sequences of calls that write, those with a refused call in them counted once for each.
    pub covered: Vec<u128>,
}

pub fn run<S: Subject + Clone>(
    subject: &S,
    n: u32,
    length: usize,
    random: &mut Random,
    counts: &mut Counts,
) -> Outcome<Sequences> {
    let pair = Pair::start(subject.clone(), n, V, 0, counts)?;
    let mut sequences = Sequences { gone_on: vec![0; length], covered: Vec::new() };
    let mut path = Vec::new();
    explore(&pair, length, &mut path, &mut sequences, random, counts)
        .map_err(|message| format!("N {n}, V {V}, after {path:?}: {message}"))?;
    let letters = writing(n, 0).len() as u128;
    sequences.covered = (1..=length as u32).map(|length| letters.pow(length)).collect();
    Ok(sequences)
}

/// Makes every call on the arena, and goes on from those that wrote.
fn explore<S: Subject + Clone>(
    pair: &Pair<S>,
    left: usize,
    path: &mut Vec<Call>,
    sequences: &mut Sequences,
    random: &mut Random,
    counts: &mut Counts,
) -> Outcome {
    for call in writing(pair.model.n, path.len()) {
        let mut child = pair.clone();
        let answer = child.call(call, counts)?;
        if matches!(answer, Answer::Refused(_)) {
            continue;
        }
        sequences.gone_on[path.len()] += 1;
        path.push(call);
        let new = if let Answer::Word(slot) = answer { Some(slot) } else { None };
        compare_reading(&mut child, new, random, counts)?;
        if left > 1 {
            explore(&child, left - 1, path, sequences, random, counts)?;
        }
        path.pop();
    }
    Ok(())
}

/// The calls that write. The value of an insert changes with the place in the sequence, so that a replacement is seen.
fn writing(n: u32, place: usize) -> Vec<Call> {
    let mut calls = vec![Call::Format { n, v: V }, Call::New];
    let value = place as u32 % 2;
    for s in SLOTS {
        calls.extend([Call::Hold { s }, Call::Release { s }]);
        calls.extend(KEYS.map(|key| Call::Insert { s, key, value }));
        calls.extend(KEYS.map(|key| Call::Remove { s, key }));
    }
    calls
}

/// All calls that read, on every slot; walks with every pair of bounds on the slot that is new.
fn compare_reading<S: Subject>(
    pair: &mut Pair<S>,
    new: Option<u32>,
    random: &mut Random,
    counts: &mut Counts,
) -> Outcome {
    pair.call(Call::FreeNodes, counts)?;
    pair.call(Call::Sound, counts)?;
    for s in SLOTS {
        for call in [Call::Size { s }, Call::First { s }, Call::Last { s }, Call::RescaleMark { s }] {
            pair.call(call, counts)?;
        }
        for key in KEYS.into_iter().chain(OTHERS) {
            pair.call(Call::Get { s, key }, counts)?;
        }
        for t in SLOTS {
            pair.call(Call::Compare { s, t }, counts)?;
            pair.call(Call::Equal { s, t }, counts)?;
            audits::compare(pair, s, t, counts)?;
        }
    }
    pair.model.held().into_iter().try_for_each(|s| pair.compare_listing(s))?;
    let Some(slot) = new else { return Ok(()) };
    compare_positions(pair, slot, counts)?;
    let kinds = |key: u32| [Bound { kind: 1, key }, Bound { kind: 2, key }];
    let bounds: Vec<Bound> = KEYS.into_iter().flat_map(kinds).chain([UNBOUNDED]).collect();
    for start in &bounds {
        for end in &bounds {
            walks::compare(pair, Walk::new(slot, *start, *end), random, counts)?;
        }
    }
    Ok(())
}

/// Difference steps of every slot and the new one, from every key on.
fn compare_positions<S: Subject>(pair: &mut Pair<S>, new: u32, counts: &mut Counts) -> Outcome {
    for s in SLOTS {
        for key in KEYS.into_iter().chain(OTHERS) {
            audits::compare_at(pair, Differences::new(s, new).stepped(key), counts)?;
        }
    }
    Ok(())
}
