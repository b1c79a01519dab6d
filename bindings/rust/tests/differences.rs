//! Differences of versions beside those of the standard library's maps.
use foamcorbel::Difference::{self, InBoth, OnlyFirst, OnlySecond};
use foamcorbel::{Arena, Entry, Slot};
use std::collections::{BTreeMap, BTreeSet};

type Plain = BTreeMap<u32, u32>;

const KEYS: [u32; 9] = [30, u32::MAX, 1, 65_536, 0, 2, 31, u32::MAX - 1, 2_625_619];

/// Versions that are all kept, each made of the one before by a key set or cut, and their listings.
fn history(arena: &mut Arena) -> Vec<(Slot, Plain)> {
    let mut slot = arena.new_version().unwrap();
    let mut plain = Plain::new();
    let mut versions = vec![(slot, plain.clone())];
    for step in 0..27 {
        let key = KEYS[(step * 4) % KEYS.len()];
        if step % 5 == 3 {
            slot = arena.remove(slot, key).unwrap();
            plain.remove(&key);
        } else {
            let value = (step % 2) as u32;
            slot = arena.insert(slot, key, value).unwrap();
            plain.insert(key, value);
        }
        versions.push((slot, plain.clone()));
    }
    versions
}

/// What two maps have at the key, if it is not the same.
fn at(key: u32, first: &Plain, second: &Plain) -> Option<Difference> {
    match (first.get(&key).copied(), second.get(&key).copied()) {
        (Some(value), None) => Some(OnlyFirst(Entry { key, value })),
        (None, Some(value)) => Some(OnlySecond(Entry { key, value })),
        (Some(first_value), Some(second_value)) if first_value != second_value => {
            Some(InBoth { key, first_value, second_value })
        }
        _ => None,
    }
}

/// The number of its kind, from 0 on.
fn kind(difference: &Difference) -> usize {
    match difference {
        OnlyFirst(_) => 0,
        OnlySecond(_) => 1,
        InBoth { .. } => 2,
    }
}

fn plain_differences(first: &Plain, second: &Plain) -> Vec<Difference> {
    let keys: BTreeSet<u32> = first.keys().chain(second.keys()).copied().collect();
    keys.into_iter().filter_map(|key| at(key, first, second)).collect()
}

#[test]
fn as_the_standard_maps() {
    let mut words = [0; Arena::words_for(400, 32)];
    let mut arena = Arena::format(&mut words, 400, 32).unwrap();
    let versions = history(&mut arena);
    let mut kinds = [0; 3];
    for (one, first) in &versions {
        for (other, second) in &versions {
            let expected = plain_differences(first, second);
            let given: Vec<Difference> = arena.differences(*one, *other).unwrap().collect();
            assert_eq!(given, expected, "{first:?} and {second:?}");
            expected.iter().for_each(|difference| kinds[kind(difference)] += 1);
        }
    }
    assert!(kinds.iter().all(|&count| count > 100), "too few of a kind: {kinds:?}");
}

#[test]
fn nothing_is_left_for_good() {
    let mut words = [0; Arena::words_for(400, 32)];
    let mut arena = Arena::format(&mut words, 400, 32).unwrap();
    let versions = history(&mut arena);
    let (empty, full) = (versions[0].0, versions[27].0);
    let mut differences = arena.differences(empty, full).unwrap();
    assert_eq!(differences.by_ref().count(), versions[27].1.len());
    assert_eq!((differences.next(), differences.next()), (None, None));
    let mut same = arena.differences(full, full).unwrap();
    assert_eq!((same.next(), same.next()), (None, None));
}

#[test]
fn a_clone_goes_on_from_where_it_was_made() {
    let mut words = [0; Arena::words_for(60, 6)];
    let mut arena = Arena::format(&mut words, 60, 6).unwrap();
    let empty = arena.new_version().unwrap();
    let one = arena.insert(empty, 0, 7).unwrap();
    let two = arena.insert(one, u32::MAX, 8).unwrap();
    let mut differences = arena.differences(two, empty).unwrap();
    assert_eq!(differences.next(), Some(OnlyFirst(Entry { key: 0, value: 7 })));
    let clone = differences.clone();
    let last = [OnlyFirst(Entry { key: u32::MAX, value: 8 })];
    assert!(differences.eq(last));
    assert!(clone.eq(last));
}

#[test]
fn versions_built_apart_that_list_the_same() {
    let mut words = [0; Arena::words_for(200, 4)];
    let mut arena = Arena::format(&mut words, 200, 4).unwrap();
    let empty = arena.new_version().unwrap();
    let mut upward = arena.hold(empty).unwrap();
    let mut downward = arena.hold(empty).unwrap();
    for key in 0..40 {
        upward = replaced(&mut arena, upward, key);
        downward = replaced(&mut arena, downward, 39 - key);
    }
    assert_eq!(arena.size(downward), Ok(40));
    assert_eq!(arena.differences(upward, downward).unwrap().next(), None);
}

/// The version with the key set to its square, in the place of that without.
fn replaced(arena: &mut Arena, slot: Slot, key: u32) -> Slot {
    let next = arena.insert(slot, key, key * key).unwrap();
    arena.release(slot).unwrap();
    next
}
