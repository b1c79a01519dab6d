//! Histories by chance: edits of versions held, new and old, and after each a few questions.
use crate::book::Book;
use crate::differences::audit;
use crate::tags::{RECEIVED, RESCALE_INTERCEPT, RESCALE_SLOPE};
use crate::walks::{HABITS, walk};
use common::random::Random;
use std::ops::Bound;

/// Where the keys of a history come from.
#[derive(Clone, Copy)]
pub enum Keys {
    /// Below 24: the same keys come again and again.
    Small,
    /// Tags of a header, the rescale pair more often than by chance.
    Tags,
    /// All 32 bits, the two ends more often than by chance.
    Full,
}

/// A history's keys, its number of edits, the most entries of a version, and the most versions held at once.
pub struct Plan {
    pub keys: Keys,
    pub edits: usize,
    pub most: usize,
    pub held: usize,
}

/// Makes one edit after another, and then releases every version.
pub fn run(book: &mut Book, plan: &Plan, random: &mut Random) {
    let mut newest = book.new_version();
    for number in 0..plan.edits {
        let held = book.held();
        let parent = if random.one_in(4) { held[random.below(held.len())] } else { newest };
        newest = edit(book, plan, parent, random);
        ask(book, plan.keys, newest, number, random);
        while book.held().len() > plan.held {
            release_one(book, newest, random);
        }
    }
    for slot in book.held() {
        book.list(slot);
        book.release(slot);
    }
}

/// An insert or a remove, of a key that is there or not.
fn edit(book: &mut Book, plan: &Plan, parent: u32, random: &mut Random) -> u32 {
    let full = book.version(parent).size() >= plan.most;
    let present = present(book, parent, random);
    let wanted = plan.keys.pick(random);
    if full || random.one_in(3) {
        let key = if random.one_in(6) { wanted } else { present.unwrap_or(wanted) };
        return book.remove(parent, key);
    }
    let key = if random.one_in(5) { present.unwrap_or(wanted) } else { wanted };
    let value = plan.keys.value(random);
    book.insert(parent, key, value)
}

/// Questions in turn, so that each comes after many edits.
fn ask(book: &mut Book, keys: Keys, slot: u32, number: usize, random: &mut Random) {
    let key = keys.pick(random);
    book.get(slot, key);
    if let Some(key) = present(book, slot, random) {
        book.get(slot, key);
    }
    let held = book.held();
    let other = held[random.below(held.len())];
    match number % 6 {
        0 => ask_ends(book, slot),
        1 => ask_order(book, slot, other),
        2 => book.list(slot),
        3 => walk_somewhere(book, keys, slot, number, random),
        4 => again(book, slot, random),
        _ => book.list(other),
    }
    if matches!(keys, Keys::Tags) {
        book.rescale_mark(slot);
    }
}

pub fn ask_ends(book: &mut Book, slot: u32) {
    book.size(slot);
    book.first(slot);
    book.last(slot);
}

pub fn ask_order(book: &mut Book, slot: u32, other: u32) {
    book.compare(slot, other);
    book.compare(other, slot);
    book.equal(slot, other);
    audit(book, slot, other);
}

/// The same version in another slot; and the same listing in another tree, an entry being removed and put back.
fn again(book: &mut Book, slot: u32, random: &mut Random) {
    let second = book.hold(slot);
    ask_order(book, second, slot);
    book.release(second);
    let Some(key) = present(book, slot, random) else {
        return;
    };
    let value = *book.version(slot).get(&key).expect("a key that is there");
    let without = book.remove(slot, key);
    ask_order(book, without, slot);
    let with = book.insert(without, key, value);
    ask_order(book, with, slot);
    book.release(without);
    book.release(with);
}

/// Bounds beside keys that are there, each pair of kinds in turn, now and then the wrong way round.
fn walk_somewhere(book: &mut Book, keys: Keys, slot: u32, number: usize, random: &mut Random) {
    let near = |random: &mut Random| {
        let key = present(book, slot, random).unwrap_or_else(|| keys.pick(random));
        key.saturating_add(random.below(3) as u32).saturating_sub(1)
    };
    let (one, two) = (near(random), near(random));
    let (start, end) = if random.one_in(8) { (one.max(two), one.min(two)) } else { (one.min(two), one.max(two)) };
    let turn = number / 6;
    let [start, end] = [(turn % 3, start), (turn / 3 % 3, end)].map(bound);
    walk(book, slot, start, end, HABITS[random.below(HABITS.len())]);
}

fn bound((kind, key): (usize, u32)) -> Bound<u32> {
    match kind {
        0 => Bound::Included(key),
        1 => Bound::Excluded(key),
        _ => Bound::Unbounded,
    }
}

/// A key of the version's, if it has one.
fn present(book: &Book, slot: u32, random: &mut Random) -> Option<u32> {
    let version = book.version(slot);
    version.keys().nth(random.below(version.size().max(1))).copied()
}

/// Any version but the newest, listed before it goes: it must still be what it was.
fn release_one(book: &mut Book, newest: u32, random: &mut Random) {
    let others: Vec<u32> = book.held().into_iter().filter(|slot| *slot != newest).collect();
    let slot = others[random.below(others.len())];
    if random.one_in(6) {
        book.list(slot);
    }
    book.release(slot);
}

impl Keys {
    fn pick(self, random: &mut Random) -> u32 {
        match self {
            Keys::Small => random.below(24) as u32,
            Keys::Tags if random.one_in(3) => [RESCALE_INTERCEPT, RESCALE_SLOPE][random.below(2)],
            Keys::Tags => RECEIVED[random.below(RECEIVED.len())],
            Keys::Full if random.one_in(6) => [0, u32::MAX][random.below(2)],
            Keys::Full => random.word(),
        }
    }

    /// Few different values, so that equal entries come up; for full keys full values.
    fn value(self, random: &mut Random) -> u32 {
        match self {
            Keys::Small => random.below(5) as u32,
            Keys::Tags => random.below(3000) as u32,
            Keys::Full if random.one_in(6) => [0, u32::MAX][random.below(2)],
            Keys::Full => random.word(),
        }
    }
}
