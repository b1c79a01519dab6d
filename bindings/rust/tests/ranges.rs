//! Ranges beside those of the standard library's map.
use foamcorbel::{Arena, Entry, Refusal, Slot};
use std::collections::BTreeMap;
use std::ops::Bound::{self, Excluded, Included, Unbounded};

/// Every third key up to 60, each with its square.
fn stored(arena: &mut Arena) -> (Slot, BTreeMap<u32, u32>) {
    let mut slot = arena.new_version().unwrap();
    let mut plain = BTreeMap::new();
    for key in (0..20).map(|i| (i * 7 % 20) * 3) {
        let next = arena.insert(slot, key, key * key).unwrap();
        arena.release(slot).unwrap();
        slot = next;
        plain.insert(key, key * key);
    }
    (slot, plain)
}

/// Both panic in the standard library's map.
fn bad(range: (Bound<u32>, Bound<u32>)) -> bool {
    match range {
        (Excluded(a), Excluded(b)) => b <= a,
        (Included(a) | Excluded(a), Included(b) | Excluded(b)) => b < a,
        _ => false,
    }
}

fn bounds() -> impl Iterator<Item = Bound<u32>> + Clone {
    let keys = [0, 1, 29, 30, 31, 57, 58, u32::MAX];
    std::iter::once(Unbounded).chain(keys.into_iter().flat_map(|key| [Included(key), Excluded(key)]))
}

#[test]
fn as_the_standard_map() {
    let mut words = [0; Arena::words_for(60, 4)];
    let mut arena = Arena::format(&mut words, 60, 4).unwrap();
    let (slot, plain) = stored(&mut arena);
    for range in bounds().flat_map(|start| bounds().map(move |end| (start, end))) {
        if bad(range) {
            assert_eq!(arena.range(slot, range).err(), Some(Refusal::BadRange), "{range:?}");
            continue;
        }
        let expected: Vec<Entry> = plain.range(range).map(|(&key, &value)| Entry { key, value }).collect();
        assert!(arena.range(slot, range).unwrap().eq(expected.iter().copied()), "{range:?}");
        assert!(arena.range(slot, range).unwrap().rev().eq(expected.iter().rev().copied()), "{range:?}");
        from_both_ends(arena.range(slot, range).unwrap(), &expected);
    }
}

/// Two from the front, one from the back, until nothing is left; then nothing is left for good.
fn from_both_ends(mut range: foamcorbel::Range, mut expected: &[Entry]) {
    for step in 0.. {
        let (given, due) = if step % 3 == 2 {
            let due = expected.split_last().map(|(last, rest)| (*last, rest));
            (range.next_back(), due)
        } else {
            let due = expected.split_first().map(|(first, rest)| (*first, rest));
            (range.next(), due)
        };
        assert_eq!(given, due.map(|(entry, _)| entry));
        let Some((_, rest)) = due else { break };
        expected = rest;
    }
    assert_eq!((range.next(), range.next_back(), range.next()), (None, None, None));
}

#[test]
fn an_older_version_keeps_its_range() {
    let mut words = [0; Arena::words_for(200, 4)];
    let mut arena = Arena::format(&mut words, 200, 4).unwrap();
    let (old, plain) = stored(&mut arena);
    let cut = arena.remove(old, 30).unwrap();
    let set = arena.insert(cut, 31, 961).unwrap();
    assert!(arena.range(old, ..).unwrap().map(|entry| (entry.key, entry.value)).eq(plain));
    assert!(arena.range(set, 29..=31).unwrap().eq([Entry { key: 31, value: 961 }]));
    assert_eq!(arena.range(cut, 29..=31).unwrap().next(), None);
}
