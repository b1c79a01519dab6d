//! Every small shape that inserts and removes reach, and every insert and remove on each.
use crate::counts::Counts;
use crate::differences;
use crate::edits;
use crate::lookups;
use crate::orders;
use crate::outcome::Outcome;
use crate::ranges;
use crate::version::Version;
use common::random::Random;
use seen::Map;
use std::collections::{HashSet, VecDeque};
use steps::edit::Edit;
use steps::range::Bound;
use steps::tree::{Color, Entry, Tree};

/// The most entries of the shapes.
pub const MOST: usize = 12;

/// The most entries where every pair of bounds is tried.
const MOST_FOR_RANGES: usize = 6;

pub fn run(random: &mut Random, counts: &mut Counts) -> Outcome {
    let mut known = HashSet::from([colors(&Tree::Leaf)]);
    let mut waiting = VecDeque::from([Version::of(Map::new())]);
    while let Some(version) = waiting.pop_front() {
        counts.shapes += 1;
        compare_answers(&version, random, counts)?;
        for change in changes(&version)? {
            counts.shape_calls += 1;
            let child = edits::compare(&version, change, counts)?;
            version.unchanged()?;
            orders::compare(&child, &version, counts)?;
            differences::compare(&child, &version, random, counts)?;
            differences::compare(&version, &child, random, counts)?;
            if known.insert(colors(&child.tree)) {
                waiting.push_back(child);
            }
        }
    }
    counts.largest = 0; // the size that is reported is that of the histories
    Ok(())
}

/// The shape with its colours, without keys: what decides which steps are taken.
fn colors(t: &Tree) -> String {
    let Tree::Node(n) = t else {
        return String::from(".");
    };
    let color = match n.color {
        Color::Red => 'r',
        Color::Black => 'b',
    };
    format!("{color}{}{}", colors(&n.left), colors(&n.right))
}

/// A set and a cut of each key, and of a key in each gap between them, as long as the size allows it.
fn changes(version: &Version) -> Outcome<Vec<Edit>> {
    let mut changes = Vec::new();
    let set = |key, value| Edit::Setting(Entry { key, value });
    for e in &version.listing {
        changes.extend([set(e.key, e.value + 1), Edit::Cutting(e.key)]);
    }
    for key in gaps(version)? {
        changes.push(Edit::Cutting(key));
        if version.listing.len() < MOST {
            changes.push(set(key, key / 3));
        }
    }
    Ok(changes)
}

/// The middle of each gap between two keys, and of the two gaps at the ends.
fn gaps(version: &Version) -> Outcome<Vec<u32>> {
    let mut lower = 0;
    let mut middles = Vec::new();
    for upper in version.keys().into_iter().chain([u32::MAX]) {
        if upper - lower < 2 {
            return Err(format!("no key is left between {lower} and {upper}"));
        }
        middles.push(lower + (upper - lower) / 2);
        lower = upper;
    }
    Ok(middles)
}

fn compare_answers(version: &Version, random: &mut Random, counts: &mut Counts) -> Outcome {
    let mut keys = version.keys();
    keys.extend(gaps(version)?);
    for key in &keys {
        lookups::compare_get(version, *key, counts)?;
    }
    lookups::compare_ends(version, counts)?;
    orders::compare_rebuilt(version, counts)?;
    if version.listing.len() <= MOST_FOR_RANGES { compare_all_ranges(version, &keys, random, counts) } else { Ok(()) }
}

fn compare_all_ranges(version: &Version, keys: &[u32], random: &mut Random, counts: &mut Counts) -> Outcome {
    let kinds = |key: &u32| [Bound::Included(*key), Bound::Excluded(*key)];
    let bounds: Vec<Bound> = keys.iter().flat_map(kinds).chain([Bound::Unbounded]).collect();
    for start in &bounds {
        for end in &bounds {
            ranges::compare(version, *start, *end, random, counts)?;
        }
    }
    Ok(())
}
