//! Walks over ranges: each step of rpds's two-ended iterator is a line.
use crate::book::{Book, entry};
use crate::line::{Answer, BAD_RANGE, Call, END};
use common::quiet;
use std::ops::Bound;

#[derive(Clone, Copy, PartialEq, Eq)]
pub enum End {
    Front,
    Back,
}

/// The order in which a walk takes its two ends, over and over; where one has answered END, the other is taken.
pub type Habit = &'static [End];

pub const HABITS: [Habit; 4] = [
    &[End::Front],
    &[End::Back],
    &[End::Front, End::Back],
    &[End::Back, End::Back, End::Front, End::Front, End::Front],
];

/// What a caller keeps of a walk.
struct Walk {
    slot: u32,
    start: Bound<u32>,
    end: Bound<u32>,
    front: Option<u32>,
    back: Option<u32>,
}

/// Walks until both ends have answered END. A range that rpds refuses by a panic is tried at both ends.
pub fn walk(book: &mut Book, slot: u32, start: Bound<u32>, end: Bound<u32>, habit: Habit) {
    let map = book.version(slot).clone();
    let mut walk = Walk { slot, start, end, front: None, back: None };
    if quiet::panics(|| drop(map.range::<u32, _>((start, end)))) {
        record(book, End::Front, &walk, Answer::Refused(BAD_RANGE));
        record(book, End::Back, &walk, Answer::Refused(BAD_RANGE));
        return;
    }
    let mut iterator = map.range::<u32, _>((start, end));
    let mut ended = None;
    for side in habit.iter().cycle() {
        let side = if ended == Some(*side) { other(*side) } else { *side };
        let given = match side {
            End::Front => iterator.next().map(entry),
            End::Back => iterator.next_back().map(entry),
        };
        record(book, side, &walk, Answer::given(given, END));
        match (given, side, ended) {
            (Some([key, _]), End::Front, _) => walk.front = Some(key),
            (Some([key, _]), End::Back, _) => walk.back = Some(key),
            (None, _, None) => ended = Some(side),
            (None, _, Some(_)) => break,
        }
    }
}

fn other(side: End) -> End {
    match side {
        End::Front => End::Back,
        End::Back => End::Front,
    }
}

fn record(book: &mut Book, side: End, walk: &Walk, answer: Answer) {
    let call = match side {
        End::Front => Call::StepFront,
        End::Back => Call::StepBack,
    };
    let [start, end] = [walk.start, walk.end].map(bound);
    let [front, back] = [walk.front, walk.back].map(last_key);
    let arguments = [&[walk.slot][..], &start, &end, &front, &back].concat();
    book.record(call, &arguments, answer);
}

/// 0 is none, 1 included, 2 excluded.
fn bound(bound: Bound<u32>) -> [u32; 2] {
    match bound {
        Bound::Unbounded => [0, 0],
        Bound::Included(key) => [1, key],
        Bound::Excluded(key) => [2, key],
    }
}

/// 0 is "not given".
fn last_key(key: Option<u32>) -> [u32; 2] {
    key.map_or([0, 0], |key| [1, key])
}
