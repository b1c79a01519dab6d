//! The script: what is called, part after part. Each part leaves no slot held.
use crate::book::{Book, SLOTS};
use crate::differences::audit;
use crate::histories::{self, Keys, Plan, ask_ends, ask_order};
use crate::tags::{IMAGE_GROUP, PATIENT_BIRTH_DATE, PATIENT_NAME, RECEIVED, RESCALE_INTERCEPT, RESCALE_SLOPE};
use crate::walks::{HABITS, walk};
use common::random::Random;
use std::ops::Bound;

const SEED: u64 = 1;

/// The most entries of a version of the list.
const MOST: u32 = 100;

/// Without a common divisor with `MOST` + 1 or with the number of tags: its multiples meet each of them once.
const STRIDE: u32 = 37;

pub fn run(book: &mut Book) {
    let mut random = Random::new(SEED);
    empty(book);
    bounds(book);
    orders(book);
    histories::run(book, &Plan { keys: Keys::Small, edits: 100, most: 16, held: 8 }, &mut random);
    slots(book);
    sequential(book);
    header(book);
    histories::run(book, &Plan { keys: Keys::Tags, edits: 50, most: 30, held: 6 }, &mut random);
    histories::run(book, &Plan { keys: Keys::Full, edits: 70, most: 24, held: 8 }, &mut random);
}

fn release_all(book: &mut Book) {
    book.held().into_iter().for_each(|slot| book.release(slot));
}

/// Everything that can be asked of a version without an entry.
fn empty(book: &mut Book) {
    let slot = book.new_version();
    ask_ends(book, slot);
    book.list(slot);
    book.get(slot, 0);
    book.get(slot, u32::MAX);
    book.rescale_mark(slot);
    walk(book, slot, Bound::Unbounded, Bound::Unbounded, HABITS[2]);
    walk(book, slot, Bound::Included(3), Bound::Excluded(7), HABITS[1]);
    walk(book, slot, Bound::Excluded(7), Bound::Excluded(7), HABITS[0]);
    let same = book.remove(slot, 7);
    ask_order(book, slot, same);
    let other = book.new_version();
    ask_order(book, slot, other);
    let one = book.insert(slot, RESCALE_SLOPE, 7);
    book.rescale_mark(one);
    let none = book.remove(one, RESCALE_SLOPE);
    ask_order(book, none, slot);
    ask_ends(book, none);
    book.list(none);
    release_all(book);
}

/// Every pair of bounds beside the single entry 5, and walks of every habit over the entries 2, 4, 6 and 8.
fn bounds(book: &mut Book) {
    let none = book.new_version();
    let five = book.insert(none, 5, 50);
    for start in beside(&[4, 5, 6]) {
        for end in beside(&[4, 5, 6]) {
            walk(book, five, start, end, HABITS[0]);
        }
    }
    let mut even = book.insert(none, 2, 20);
    for key in [4, 6, 8] {
        even = book.insert(even, key, 10 * key);
    }
    for (turn, start) in beside(&[1, 4]).into_iter().enumerate() {
        for (other, end) in beside(&[6, 9]).into_iter().enumerate() {
            walk(book, even, start, end, HABITS[(turn + other) % HABITS.len()]);
        }
    }
    release_all(book);
}

/// No bound, and each key included and excluded.
fn beside(keys: &[u32]) -> Vec<Bound<u32>> {
    let given = keys.iter().flat_map(|key| [Bound::Included(*key), Bound::Excluded(*key)]);
    [Bound::Unbounded].into_iter().chain(given).collect()
}

/// Listings that differ in a key, in a value, or by being a proper beginning of the other, each
/// pair in both orders: how they compare, and what differs.
fn orders(book: &mut Book) {
    let none = book.new_version();
    let listings: [&[(u32, u32)]; 7] = [
        &[(1, 1)],
        &[(1, 2)],
        &[(1, 1), (2, 0)],
        &[(2, 0), (1, 1)],
        &[(2, 0)],
        &[(0, u32::MAX), (u32::MAX, 0)],
        &[(0, u32::MAX)],
    ];
    let mut slots = vec![none];
    for listing in listings {
        let mut slot = none;
        for (key, value) in listing {
            slot = book.insert(slot, *key, *value);
        }
        slots.push(slot);
    }
    for slot in &slots {
        for other in &slots {
            book.compare(*slot, *other);
            book.equal(*slot, *other);
            audit(book, *slot, *other);
        }
    }
    release_all(book);
}

/// All slots held at once, then every third released and handed out again, the lowest first.
fn slots(book: &mut Book) {
    let mut slot = book.new_version();
    while book.held().len() < SLOTS {
        slot = book.insert(slot, 3 * slot + 1, slot);
    }
    let mut given_up: Vec<u32> = book.held().into_iter().step_by(3).collect();
    given_up.reverse();
    given_up.iter().for_each(|slot| book.release(*slot));
    for _ in given_up {
        book.hold(1);
    }
    for slot in book.held() {
        book.size(slot);
        book.last(slot);
    }
    release_all(book);
}

/// Ascending keys up to a hundred entries, a version held at each ten; then all removed in a scattered order.
fn sequential(book: &mut Book) {
    let mut slot = book.new_version();
    for key in 1..=MOST {
        let next = book.insert(slot, key, 1000 - key);
        if key % 10 != 1 {
            book.release(slot);
        }
        slot = next;
    }
    book.list(slot);
    walk(book, slot, Bound::Excluded(30), Bound::Included(60), HABITS[3]);
    for number in 1..=MOST {
        let next = book.remove(slot, number * STRIDE % (MOST + 1));
        book.release(slot);
        slot = next;
        if number % 10 == 0 {
            ask_ends(book, slot);
            book.list(slot);
        }
    }
    // The versions held at each ten are still what they were.
    for slot in book.held() {
        book.list(slot);
    }
    release_all(book);
}

/// A header as received, as imported, where the rescale pair is set, and as sent, where the patient is taken out.
fn header(book: &mut Book) {
    let mut received = book.new_version();
    for number in 0..RECEIVED.len() {
        let place = number * STRIDE as usize % RECEIVED.len();
        let next = book.insert(received, RECEIVED[place], 100 + 8 * place as u32);
        book.release(received);
        received = next;
    }
    let half = book.insert(received, RESCALE_INTERCEPT, 9000);
    let imported = book.insert(half, RESCALE_SLOPE, 9008);
    let nameless = book.remove(imported, PATIENT_NAME);
    let sent = book.remove(nameless, PATIENT_BIRTH_DATE);
    let dated = book.insert(sent, RECEIVED[4], 9016);
    for slot in book.held() {
        book.rescale_mark(slot);
        ask_ends(book, slot);
        book.list(slot);
        book.get(slot, PATIENT_NAME);
        book.get(slot, RESCALE_INTERCEPT);
        book.get(slot, RECEIVED[4]);
        ask_order(book, slot, imported);
        walk(book, slot, Bound::Included(IMAGE_GROUP[0]), Bound::Excluded(IMAGE_GROUP[1]), HABITS[2]);
    }
    book.equal(sent, dated);
    for slot in book.held() {
        for other in book.held() {
            audit(book, slot, other);
        }
    }
    release_all(book);
}
