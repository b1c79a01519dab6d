//! Each refusal that the wrapper can give, from every function that can give it; and no refused call changes a word.
use foamcorbel::{Arena, Refusal, Slot};
use std::ops::Bound::Included;

/// The call is refused so, and the words are those from before.
fn refuses<T: std::fmt::Debug + PartialEq>(
    arena: &mut Arena,
    refusal: Refusal,
    call: impl Fn(&mut Arena) -> Result<T, Refusal>,
) {
    let before = arena.words().to_vec();
    assert_eq!(call(arena), Err(refusal));
    assert_eq!(arena.words(), before);
}

#[test]
fn bad_shapes() {
    let mut words = vec![7; Arena::words_for(2048, 33)];
    for (nodes, slots) in [(0, 1), (1, 0), (2048, 1), (1, 33), (u32::MAX, u32::MAX)] {
        let end = Arena::words_for(nodes, slots).min(words.len());
        assert_eq!(Arena::format(&mut words[..end], nodes, slots).err(), Some(Refusal::BadShape));
    }
    for length in [0, 1, Arena::words_for(4, 2) - 1, Arena::words_for(4, 2) + 1] {
        assert_eq!(Arena::format(&mut words[..length], 4, 2).err(), Some(Refusal::BadShape));
    }
    assert!(words.iter().all(|&word| word == 7));
    assert_eq!(Arena::format(&mut [], 0, 0).err(), Some(Refusal::BadShape));
}

#[test]
fn unsound_words_are_not_opened() {
    assert_eq!(Arena::open(&mut []).err(), Some(Refusal::Unsound));
    assert_eq!(Arena::open(&mut [7; 100]).err(), Some(Refusal::Unsound));
    let mut words = [0; Arena::words_for(4, 2)];
    Arena::format(&mut words, 4, 2).unwrap();
    // N, V, the first free node, the count of node 1, the root of slot 0.
    for at in [0, 1, 2, 13, 8 + 6 * 4] {
        words[at] ^= 1;
        assert_eq!(Arena::open(&mut words).err(), Some(Refusal::Unsound), "word {at}");
        words[at] ^= 1;
    }
    assert!(Arena::open(&mut words).is_ok());
}

#[test]
fn slots_that_are_not_held() {
    let mut words = [0; Arena::words_for(20, 3)];
    let mut arena = Arena::format(&mut words, 20, 3).unwrap();
    let held = arena.new_version().unwrap();
    for slot in [Slot(1), Slot(3), Slot(u32::MAX)] {
        refuses(&mut arena, Refusal::NoVersion, |arena| arena.hold(slot));
        refuses(&mut arena, Refusal::NoVersion, |arena| arena.release(slot));
        refuses(&mut arena, Refusal::NoVersion, |arena| arena.insert(slot, 5, 50));
        refuses(&mut arena, Refusal::NoVersion, |arena| arena.remove(slot, 5));
        refuses(&mut arena, Refusal::NoVersion, |arena| arena.size(slot));
        refuses(&mut arena, Refusal::NoVersion, |arena| arena.get(slot, 5));
        refuses(&mut arena, Refusal::NoVersion, |arena| arena.first(slot));
        refuses(&mut arena, Refusal::NoVersion, |arena| arena.last(slot));
        refuses(&mut arena, Refusal::NoVersion, |arena| arena.compare(held, slot));
        refuses(&mut arena, Refusal::NoVersion, |arena| arena.equal(slot, held));
        refuses(&mut arena, Refusal::NoVersion, |arena| arena.rescale_mark(slot));
        for (one, other) in [(held, slot), (slot, held), (slot, slot)] {
            let differences = |arena: &mut Arena| arena.differences(one, other).map(|_| ());
            refuses(&mut arena, Refusal::NoVersion, differences);
        }
        refuses(&mut arena, Refusal::NoVersion, |arena| arena.range(slot, (Included(6), Included(5))).map(|_| ()));
    }
}

#[test]
fn absent_keys() {
    let mut words = [0; Arena::words_for(20, 3)];
    let mut arena = Arena::format(&mut words, 20, 3).unwrap();
    let empty = arena.new_version().unwrap();
    refuses(&mut arena, Refusal::Absent, |arena| arena.get(empty, 5));
    refuses(&mut arena, Refusal::Absent, |arena| arena.first(empty));
    refuses(&mut arena, Refusal::Absent, |arena| arena.last(empty));
}

#[test]
fn all_slots_held() {
    let mut words = [0; Arena::words_for(20, 1)];
    let mut arena = Arena::format(&mut words, 20, 1).unwrap();
    let slot = arena.new_version().unwrap();
    refuses(&mut arena, Refusal::NoSlot, |arena| arena.new_version());
    refuses(&mut arena, Refusal::NoSlot, |arena| arena.hold(slot));
    refuses(&mut arena, Refusal::NoSlot, |arena| arena.insert(slot, 5, 50));
    refuses(&mut arena, Refusal::NoSlot, |arena| arena.remove(slot, 5));
}

#[test]
fn too_few_nodes() {
    let mut words = [0; Arena::words_for(2, 3)];
    let mut arena = Arena::format(&mut words, 2, 3).unwrap();
    let empty = arena.new_version().unwrap();
    let one = arena.insert(empty, 5, 50).unwrap();
    refuses(&mut arena, Refusal::NoRoom, |arena| arena.insert(one, 6, 60));
    refuses(&mut arena, Refusal::NoRoom, |arena| arena.remove(one, 5));
    assert_eq!(arena.remove(one, 6), Ok(Slot(2)));
}

#[test]
fn numbers_are_document_01s() {
    let all = [
        Refusal::BadShape,
        Refusal::Unsound,
        Refusal::NoVersion,
        Refusal::BadRange,
        Refusal::Absent,
        Refusal::NoSlot,
        Refusal::NoRoom,
        Refusal::End,
    ];
    assert!(all.iter().map(|refusal| refusal.number()).eq(1..=8));
}
