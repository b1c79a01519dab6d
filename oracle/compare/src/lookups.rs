//! `get`, `first` and `last`, by the tree's steps and by the listing's meaning.
use crate::counts::Counts;
use crate::outcome::{Outcome, same};
use crate::version::{Version, entry};
use steps::listing::{find, first_of, last_of};
use steps::lookup::{first, get, has, last};

/// The key looked up, and the keys beside it.
pub fn compare_near(version: &Version, key: u32, counts: &mut Counts) -> Outcome {
    for near in [key, key.wrapping_add(1), key.wrapping_sub(1)] {
        compare_get(version, near, counts)?;
    }
    Ok(())
}

pub fn compare_get(version: &Version, key: u32, counts: &mut Counts) -> Outcome {
    counts.lookups += 1;
    let found = version.map.get_key_value(&key).map(entry);
    same("get by steps", found, get(key, &version.tree))?;
    same("get by the listing", found, find(key, &version.listing))?;
    same("contains_key", version.map.contains_key(&key), has(key, &version.tree))
}

pub fn compare_ends(version: &Version, counts: &mut Counts) -> Outcome {
    counts.lookups += 2;
    let (least, greatest) = (version.map.first().map(entry), version.map.last().map(entry));
    same("first by steps", least, first(&version.tree))?;
    same("first by the listing", least, first_of(&version.listing))?;
    same("last by steps", greatest, last(&version.tree))?;
    same("last by the listing", greatest, last_of(&version.listing))
}
