//! What differs between two versions: each step of an audit is a line.
use crate::book::{Book, Map};
use crate::line::{Answer, Call, END};
use std::collections::BTreeSet;

/// Every step of an audit of two versions, from no key to END.
pub fn audit(book: &mut Book, slot: u32, other: u32) {
    let rows = differing(book.version(slot), book.version(other));
    let mut last = [0, 0];
    for row in rows {
        record(book, [slot, other], last, Answer::Values(row.to_vec()));
        last = [1, row[1]];
    }
    record(book, [slot, other], last, Answer::Refused(END));
}

fn record(book: &mut Book, slots: [u32; 2], last: [u32; 2], answer: Answer) {
    book.record(Call::StepDifference, &[slots, last].concat(), answer);
}

/// rpds has no such function: what its `get` has in both maps decides, at every key of either.
fn differing(one: &Map, other: &Map) -> Vec<[u32; 4]> {
    let keys: BTreeSet<u32> = one.keys().chain(other.keys()).copied().collect();
    keys.into_iter().filter_map(|key| row(key, one.get(&key), other.get(&key))).collect()
}

/// The kind, the key and the two values, 0 where a map has none.
fn row(key: u32, one: Option<&u32>, other: Option<&u32>) -> Option<[u32; 4]> {
    match (one, other) {
        (Some(value), None) => Some([1, key, *value, 0]),
        (None, Some(value)) => Some([2, key, 0, *value]),
        (Some(first), Some(second)) if first != second => Some([3, key, *first, *second]),
        _ => None,
    }
}
