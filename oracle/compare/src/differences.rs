//! What differs between two versions, beside rpds's lookups and its equality.
use crate::counts::Counts;
use crate::outcome::{Outcome, holds, same};
use crate::version::{Version, entry};
use common::random::Random;
use seen::Map;
use std::collections::BTreeSet;
use steps::difference::{Difference, ascending_tags, difference_at, differences, find_tag};
use steps::difference::{next_difference, steps, tag};
use steps::listing::find;

/// Of versions with more entries the keys are looked up seldom.
const LARGE: usize = 64;

/// Versions with more differences are not stepped through, as each step reads both listings.
const MANY: usize = 24;

/// The tags of two versions, and what rpds's lookups differ in, by rising tag.
struct LookedUp {
    tags: Vec<u32>,
    differences: Vec<Difference>,
}

pub fn compare(xs: &Version, ys: &Version, random: &mut Random, counts: &mut Counts) -> Outcome {
    let defined = differences(&xs.listing, &ys.listing);
    counts.audits += 1;
    holds("the tags of the differences ascend", ascending_tags(&defined))?;
    same("nothing differs", xs.map == ys.map, defined.is_empty())?;
    if xs.listing.len().max(ys.listing.len()) > LARGE && !random.one_in(16) {
        return Ok(());
    }
    counts.differences += defined.len() as u64;
    let found = look_up(&xs.map, &ys.map);
    same("differences", &found.differences, &defined)?;
    let any = found.tags.get(random.below(found.tags.len() + 1)).copied();
    compare_at(xs, ys, &found, any.unwrap_or(random.word()))?;
    compare_at(xs, ys, &found, random.word())?;
    compare_steps(xs, ys, &found)
}

fn look_up(xs: &Map, ys: &Map) -> LookedUp {
    let tags: BTreeSet<u32> = xs.keys().chain(ys.keys()).copied().collect();
    let differences = tags.iter().filter_map(|key| look_up_at(xs, ys, *key)).collect();
    LookedUp { tags: tags.into_iter().collect(), differences }
}

fn look_up_at(xs: &Map, ys: &Map, key: u32) -> Option<Difference> {
    match (xs.get_key_value(&key).map(entry), ys.get_key_value(&key).map(entry)) {
        (Some(e), Some(f)) => (e.value != f.value).then_some(Difference::InBoth(e, f)),
        (Some(e), None) => Some(Difference::OnlyFirst(e)),
        (None, Some(f)) => Some(Difference::OnlySecond(f)),
        (None, None) => None,
    }
}

/// What the definitions have at a key, and as the next difference above it.
fn compare_at(xs: &Version, ys: &Version, found: &LookedUp, key: u32) -> Outcome {
    let at = look_up_at(&xs.map, &ys.map, key);
    let (e, f) = (find(key, &xs.listing), find(key, &ys.listing));
    same("the difference at a key", at, difference_at(e, f))?;
    same("the difference with a tag", at, find_tag(key, &found.differences))?;
    let next = found.differences.iter().copied().find(|d| tag(*d) > key);
    same("the next difference", next, next_difference(Some(key), &xs.listing, &ys.listing))
}

/// Steps from no key on give what rpds's lookups differ in, and then nothing.
fn compare_steps(xs: &Version, ys: &Version, found: &LookedUp) -> Outcome {
    let stepped = || steps(&xs.listing, &ys.listing, None, &found.differences);
    holds("steps give the differences", found.differences.len() > MANY || stepped())
}
