//! Two-ended ranges: rpds's iterator beside `next` on the listing and `step` on the tree.
use crate::counts::Counts;
use crate::outcome::{Outcome, same};
use crate::version::{Version, entry};
use common::quiet;
use common::random::Random;
use std::ops;
use steps::lookup::step;
use steps::range::{Bound, End, Range, bad_range, next, remains, stepped};

/// Ranges with more entries are walked seldom, as each step reads the whole listing.
const WIDE: usize = 64;

/// A range chosen at random, refused or walked.
pub fn compare_any(version: &Version, random: &mut Random, counts: &mut Counts) -> Outcome {
    let (start, end) = any_bounds(version, random);
    let range = Range { start, end, given_front: None, given_back: None };
    let inside = version.listing.iter().filter(|e| remains(&range, **e)).count();
    if inside > WIDE && !random.one_in(WIDE) {
        return Ok(());
    }
    compare(version, start, end, random, counts)
}

/// rpds refuses exactly the bad ranges; any other is walked.
pub fn compare(version: &Version, start: Bound, end: Bound, random: &mut Random, counts: &mut Counts) -> Outcome {
    compare_refusal(version, start, end, counts)
        .and_then(|bad| if bad { Ok(()) } else { walk(version, start, end, random, counts) })
        .map_err(|message| format!("range {start:?} to {end:?} of {:?}: {message}", version.keys()))
}

/// Whether the range is bad, and so refused by a panic of rpds's.
fn compare_refusal(version: &Version, start: Bound, end: Bound, counts: &mut Counts) -> Outcome<bool> {
    let bad = bad_range(start, end);
    let refused = quiet::panics(|| drop(version.map.range::<u32, _>((of_rust(start), of_rust(end)))));
    same("refused", refused, bad)?;
    counts.bad_ranges += u64::from(bad);
    Ok(bad)
}

/// Steps at either end by chance, until both ends have answered twice that nothing is left.
fn walk(version: &Version, start: Bound, end: Bound, random: &mut Random, counts: &mut Counts) -> Outcome {
    counts.walks += 1;
    let mut iterator = version.map.range::<u32, _>((of_rust(start), of_rust(end)));
    let mut range = Range { start, end, given_front: None, given_back: None };
    let (mut front_ends, mut back_ends) = (0, 0);
    let habit = random.below(4);
    while front_ends < 2 || back_ends < 2 {
        let side = choose_end(habit, random);
        let (answer, ends) = match side {
            End::Front => (iterator.next().map(entry), &mut front_ends),
            End::Back => (iterator.next_back().map(entry), &mut back_ends),
        };
        counts.range_steps += 1;
        same("a step on the listing", answer, next(side, &range, &version.listing))?;
        same("a step on the tree", answer, step(side, &range, &version.tree))?;
        match answer {
            Some(given) => range = stepped(side, &range, given),
            None => *ends += 1,
        }
    }
    Ok(())
}

/// Some walks come mostly from the front, some mostly from the back, the others from both.
fn choose_end(habit: usize, random: &mut Random) -> End {
    let front = match habit {
        0 => !random.one_in(8),
        1 => random.one_in(8),
        _ => random.one_in(2),
    };
    if front { End::Front } else { End::Back }
}

/// Bounds near keys that are there, now and then the wrong way round.
fn any_bounds(version: &Version, random: &mut Random) -> (Bound, Bound) {
    let low = random.below(version.listing.len() + 1);
    let high = low + random.below(version.listing.len().min(WIDE) + 1);
    let (start, end) = (near(version, low, random), near(version, high, random));
    let (start, end) = if random.one_in(8) { (end, start) } else { (start, end) };
    (any_bound(start, random), any_bound(end, random))
}

/// The key at a place in the listing, or one beside it.
fn near(version: &Version, place: usize, random: &mut Random) -> u32 {
    let key = version.listing.get(place).map_or(u32::MAX, |e| e.key);
    match random.below(4) {
        0 => key.saturating_add(1),
        1 => key.saturating_sub(1),
        _ => key,
    }
}

fn any_bound(key: u32, random: &mut Random) -> Bound {
    match random.below(5) {
        0 => Bound::Unbounded,
        1 | 2 => Bound::Included(key),
        _ => Bound::Excluded(key),
    }
}

fn of_rust(bound: Bound) -> ops::Bound<u32> {
    match bound {
        Bound::Included(key) => ops::Bound::Included(key),
        Bound::Excluded(key) => ops::Bound::Excluded(key),
        Bound::Unbounded => ops::Bound::Unbounded,
    }
}
