//! The order of two versions and their equality.
use crate::counts::Counts;
use crate::outcome::{Outcome, same};
use crate::version::Version;
use seen::Map;
use std::cmp::Ordering;
use steps::order::{Sign, compare as compare_listings, equal};

/// Both ways round, by rpds's `Ord` and `PartialEq`.
pub fn compare(one: &Version, other: &Version, counts: &mut Counts) -> Outcome {
    compare_one_way(one, other, counts)?;
    compare_one_way(other, one, counts)
}

fn compare_one_way(one: &Version, other: &Version, counts: &mut Counts) -> Outcome {
    counts.comparisons += 1;
    same("compare", sign(one.map.cmp(&other.map)), compare_listings(&one.listing, &other.listing))?;
    same("equal", one.map == other.map, equal(&one.listing, &other.listing))
}

/// The same entries put in from the last to the first: equal, and most often of another shape.
pub fn compare_rebuilt(version: &Version, counts: &mut Counts) -> Outcome {
    let backwards: Map = version.listing.iter().rev().map(|e| (e.key, e.value)).collect();
    compare(version, &Version::of(backwards), counts)
}

fn sign(ordering: Ordering) -> Sign {
    match ordering {
        Ordering::Less => Sign::Less,
        Ordering::Equal => Sign::Same,
        Ordering::Greater => Sign::More,
    }
}
