//! Two-ended walks beside rpds's `range`: fronts and backs mixed until both ends have given END twice.
use crate::counts::Counts;
use crate::model::{bad_range, bounds};
use crate::pair::Pair;
use common::quiet;
use common::random::Random;
use library::Subject;
use library::call::{Answer, BAD_RANGE, Bound, Call, END, End, UNBOUNDED, Walk};
use library::outcome::{Outcome, same};

/// Ranges with more entries are walked seldom, as each step tests the whole arena.
const WIDE: usize = 40;

/// A range near keys that are there.
pub fn compare_any<S: Subject>(pair: &mut Pair<S>, s: u32, random: &mut Random, counts: &mut Counts) -> Outcome {
    let map = pair.model.map(s).expect("the slot is held");
    let keys: Vec<u32> = map.keys().copied().collect();
    let low = random.below(keys.len() + 1);
    let high = low + random.below(keys.len().min(8) + 1);
    let (start, end) = (near(&keys, low, random), near(&keys, high, random));
    let (start, end) = if random.one_in(8) { (end, start) } else { (start, end) };
    let walk = Walk::new(s, any_bound(start, random), any_bound(end, random));
    let wide = !bad_range(bounds(&walk)) && map.range::<u32, _>(bounds(&walk)).nth(WIDE).is_some();
    if wide && !random.one_in(4 * keys.len()) {
        return Ok(());
    }
    compare(pair, walk, random, counts)
}

/// The whole listing of a slot by steps.
pub fn compare_all<S: Subject>(pair: &mut Pair<S>, s: u32, random: &mut Random, counts: &mut Counts) -> Outcome {
    compare(pair, Walk::new(s, UNBOUNDED, UNBOUNDED), random, counts)
}

/// rpds refuses exactly the bad ranges, by a panic; any other is walked.
pub fn compare<S: Subject>(pair: &mut Pair<S>, walk: Walk, random: &mut Random, counts: &mut Counts) -> Outcome {
    let map = pair.model.map(walk.slot).expect("the slot is held").clone();
    let panics = quiet::panics(|| drop(map.range::<u32, _>(bounds(&walk))));
    let end = if random.one_in(2) { End::Front } else { End::Back };
    let refused = pair.call(Call::Step { end, walk }, counts)? == Answer::Refused(BAD_RANGE);
    same("BAD_RANGE, against rpds's panic", panics, refused)?;
    if panics {
        counts.bad_ranges += 1;
        return Ok(());
    }
    counts.walks += 1;
    let mut iterator = map.range::<u32, _>(bounds(&walk));
    let (mut walk, mut front_ends, mut back_ends) = (walk, 0, 0);
    let habit = random.below(4);
    while front_ends < 2 || back_ends < 2 {
        let end = choose_end(habit, random);
        let (expected, ends) = match end {
            End::Front => (iterator.next(), &mut front_ends),
            End::Back => (iterator.next_back(), &mut back_ends),
        };
        let expected = expected.map_or(Answer::Refused(END), |(key, value)| Answer::Entry(*key, *value));
        let found = pair.call(Call::Step { end, walk }, counts)?;
        counts.steps += 1;
        same("a step, against rpds's iterator", expected, found)?;
        match found {
            Answer::Entry(key, _) => walk = walk.stepped(end, key),
            _ => *ends += 1,
        }
    }
    Ok(())
}

/// Some walks come mostly from the front, some mostly from the back, the others from both.
fn choose_end(habit: usize, random: &mut Random) -> End {
    let front = match habit {
        0 => !random.one_in(8),
        1 => random.one_in(8),
        _ => random.one_in(2),
    };
    if front { End::Front } else { End::Back }
}

/// The key at a place in the listing, or one beside it.
pub fn near(keys: &[u32], place: usize, random: &mut Random) -> u32 {
    let key = keys.get(place).copied().unwrap_or(u32::MAX);
    match random.below(4) {
        0 => key.saturating_add(1),
        1 => key.saturating_sub(1),
        _ => key,
    }
}

/// Every number is a bound's kind; those above 2 are none.
pub fn any_bound(key: u32, random: &mut Random) -> Bound {
    Bound { kind: [0, 1, 1, 1, 1, 2, 2, 2, 2, random.word()][random.below(10)], key }
}
