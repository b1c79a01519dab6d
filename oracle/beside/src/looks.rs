//! What is asked of the slots that a call has touched: the calls that only read, beside rpds.
use crate::audits;
use crate::counts::Counts;
use crate::pair::Pair;
use crate::walks;
use common::random::Random;
use library::Subject;
use library::call::{Answer, Call};
use library::outcome::Outcome;

/// Versions with more entries are seldom listed by steps, as each step tests the whole arena.
const SHORT: usize = 24;

/// The slots that a call names or hands out.
fn touched(call: Call, answer: Answer) -> Vec<u32> {
    let mut slots = match call {
        Call::Hold { s } | Call::Release { s } | Call::Size { s } | Call::Get { s, .. } => vec![s],
        Call::First { s } | Call::Last { s } | Call::RescaleMark { s } => vec![s],
        Call::Insert { s, .. } | Call::Remove { s, .. } => vec![s],
        Call::Compare { s, t } | Call::Equal { s, t } => vec![s, t],
        Call::Step { walk, .. } => vec![walk.slot],
        Call::Difference { at } => vec![at.first, at.second],
        Call::Format { .. } | Call::New | Call::FreeNodes | Call::Sound => vec![],
    };
    if let (true, Answer::Word(slot)) = (call.writes(), answer) {
        slots.push(slot);
    }
    slots
}

/// Every touched slot that is held, and one that is not; a call that writes is followed by more questions.
pub fn compare<S: Subject>(
    pair: &mut Pair<S>,
    call: Call,
    answer: Answer,
    random: &mut Random,
    counts: &mut Counts,
) -> Outcome {
    let key = match call {
        Call::Insert { key, .. } | Call::Remove { key, .. } | Call::Get { key, .. } => key,
        _ => random.word(),
    };
    for s in touched(call, answer) {
        audits::compare_at(pair, audits::any_naming(&pair.model, s, random), counts)?;
        if pair.model.map(s).is_none() {
            pair.call(Call::Get { s, key }, counts)?;
            continue;
        }
        pair.compare_listing(s)?;
        compare_slot(pair, s, key, random, counts)?;
        if call.writes() {
            compare_orders(pair, s, random, counts)?;
        }
    }
    if let (true, Answer::Word(new)) = (call.writes(), answer) {
        audits::compare_new(pair, new, parent(call), random, counts)?;
    }
    pair.call(Call::Sound, counts)?;
    Ok(())
}

/// The slot whose version a new one was made of.
fn parent(call: Call) -> Option<u32> {
    match call {
        Call::Hold { s } | Call::Insert { s, .. } | Call::Remove { s, .. } => Some(s),
        _ => None,
    }
}

/// Size, ends, lookups of keys that are there and of keys that are not, the mark, and a walk.
fn compare_slot<S: Subject>(pair: &mut Pair<S>, s: u32, key: u32, random: &mut Random, counts: &mut Counts) -> Outcome {
    for call in [Call::Size { s }, Call::First { s }, Call::Last { s }, Call::RescaleMark { s }] {
        pair.call(call, counts)?;
    }
    let map = pair.model.map(s).expect("the slot is held");
    let size = map.size();
    let present = map.keys().nth(random.below(size.max(1))).copied().unwrap_or(0);
    for key in [key, key.wrapping_add(1), key.wrapping_sub(1), present, random.word()] {
        pair.call(Call::Get { s, key }, counts)?;
    }
    walks::compare_any(pair, s, random, counts)?;
    let list = if size <= SHORT { random.one_in(4) } else { random.one_in(8 * size) };
    if list { walks::compare_all(pair, s, random, counts) } else { Ok(()) }
}

/// Order and equality with itself and another held slot, both ways round.
fn compare_orders<S: Subject>(pair: &mut Pair<S>, s: u32, random: &mut Random, counts: &mut Counts) -> Outcome {
    let held = pair.model.held();
    let other = held[random.below(held.len())];
    for (s, t) in [(s, other), (other, s), (s, s)] {
        pair.call(Call::Compare { s, t }, counts)?;
        pair.call(Call::Equal { s, t }, counts)?;
    }
    Ok(())
}
