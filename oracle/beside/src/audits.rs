//! Difference steps beside rpds: audits, in which two versions are stepped through until END was
//! given twice, and single steps from any position.
use crate::choice::impossible;
use crate::counts::Counts;
use crate::merge;
use crate::model::Model;
use crate::pair::Pair;
use crate::walks::near;
use common::random::Random;
use library::Subject;
use library::call::{Answer, Call, Differences, END};
use library::outcome::{Outcome, same};

/// Versions with more differences are audited seldom, as each step tests the whole arena.
const MANY: usize = 24;

/// A version that a call has made, beside its parent, beside itself and beside any other.
pub fn compare_new<S: Subject>(
    pair: &mut Pair<S>,
    new: u32,
    parent: Option<u32>,
    random: &mut Random,
    counts: &mut Counts,
) -> Outcome {
    let held = pair.model.held();
    let other = held[random.below(held.len())];
    let with_parent = parent.map(|s| if random.one_in(2) { (s, new) } else { (new, s) });
    let with_others = [(new, new), (new, other), (other, new)];
    for (first, second) in with_parent.into_iter().chain(with_others) {
        let count = count(&pair.model, first, second);
        if count <= MANY || random.one_in(4 * count) {
            compare(pair, first, second, counts)?;
        }
    }
    Ok(())
}

/// How many differences two held slots have.
fn count(model: &Model, first: u32, second: u32) -> usize {
    let map = |s| model.map(s).expect("the slot is held");
    merge::differences(map(first), map(second)).count()
}

/// All differences of two slots by steps, or NO_VERSION where one is not held.
pub fn compare<S: Subject>(pair: &mut Pair<S>, s: u32, t: u32, counts: &mut Counts) -> Outcome {
    let (mut at, mut ends) = (Differences::new(s, t), 0);
    while ends < 2 {
        match step(pair, at, counts)? {
            Answer::Difference(given) => at = at.stepped(given.key),
            Answer::Refused(END) => ends += 1,
            _ => return Ok(()),
        }
    }
    counts.audits += 1;
    Ok(())
}

/// Any position that names the slot first, second or twice; the other slot may not be held.
pub fn any_naming(model: &Model, s: u32, random: &mut Random) -> Differences {
    let any = random.below(model.slots.len()) as u32;
    let other = if random.one_in(4) { impossible(model, random) } else { any };
    let (first, second) = [(s, other), (other, s), (s, s)][random.below(3)];
    any_position(model, first, second, random)
}

/// Any last key, most often near one of a version; every number says whether it was given.
pub fn any_position(model: &Model, first: u32, second: u32, random: &mut Random) -> Differences {
    let map = model.map(if random.one_in(2) { first } else { second });
    let keys: Vec<u32> = map.map_or(Vec::new(), |map| map.keys().copied().collect());
    let near = near(&keys, random.below(keys.len() + 1), random);
    let key = if random.one_in(8) { random.word() } else { near };
    let given = [0, 1, 3, 255, 1 << random.below(32), u32::MAX, random.word()][random.below(7)];
    Differences { first, second, given: (given, key) }
}

/// A single step.
pub fn compare_at<S: Subject>(pair: &mut Pair<S>, at: Differences, counts: &mut Counts) -> Outcome {
    step(pair, at, counts).map(drop)
}

/// One step beside the merge, beside rpds's lookups, and from no key on beside rpds's `==`.
fn step<S: Subject>(pair: &mut Pair<S>, at: Differences, counts: &mut Counts) -> Outcome<Answer> {
    let found = pair.call(Call::Difference { at }, counts)?;
    let (first, second) = (pair.model.map(at.first), pair.model.map(at.second));
    let (Some(first), Some(second)) = (first, second) else { return Ok(found) };
    let lookups = merge::compare_lookups(first, second, &at, found);
    lookups.map_err(|message| format!("{at:?}: {message}"))?;
    if at.given.0 == 0 {
        let ended = found == Answer::Refused(END);
        same("END from no key on, against rpds's ==", first == second, ended)?;
    }
    Ok(found)
}
