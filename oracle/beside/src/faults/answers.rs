//! Faults in the answers.
use super::Spoil;
use library::call::{ABSENT, BAD_RANGE, END, NO_ROOM, NO_SLOT, NO_VERSION};
use library::call::{Answer, Call, End, truth};
use library::layout;
use library::lent::Lent;
use library::{Library, Subject};

pub const FAULTS: &[(&str, Spoil)] = &[
    ("a handed-out slot is one too high", |_, _, call, answer| match (call, answer) {
        (Call::New | Call::Hold { .. } | Call::Insert { .. } | Call::Remove { .. }, Answer::Word(s)) => {
            Answer::Word(s + 1)
        }
        _ => answer,
    }),
    ("size is one too high from 4 entries on", |_, _, call, answer| match (call, answer) {
        (Call::Size { .. }, Answer::Word(size)) if size > 3 => Answer::Word(size + 1),
        _ => answer,
    }),
    ("one node is free though none is", |_, _, call, answer| match (call, answer) {
        (Call::FreeNodes, Answer::Word(0)) => Answer::Word(1),
        _ => answer,
    }),
    ("get finds nothing above 1,000 entries", |before, _, call, answer| match (call, answer) {
        (Call::Get { s, .. }, Answer::Word(_)) if layout::slot(before, s).1 > 1000 => Answer::Refused(ABSENT),
        _ => answer,
    }),
    ("get gives the value of the entry before", get_before),
    ("get of an absent key gives 0", |_, _, call, answer| match (call, answer) {
        (Call::Get { .. }, Answer::Refused(ABSENT)) => Answer::Word(0),
        _ => answer,
    }),
    ("first gives the second entry", |before, _, call, answer| match call {
        Call::First { s } => nth(before, s, 1).unwrap_or(answer),
        _ => answer,
    }),
    ("last gives the first entry", |before, _, call, answer| match call {
        Call::Last { s } => nth(before, s, 0).unwrap_or(answer),
        _ => answer,
    }),
    ("first of an empty version is END", |_, _, call, answer| match (call, answer) {
        (Call::First { .. }, Answer::Refused(ABSENT)) => Answer::Refused(END),
        _ => answer,
    }),
    ("compare the other way round", |_, _, call, answer| match (call, answer) {
        (Call::Compare { .. }, Answer::Word(sign)) => Answer::Word(sign.wrapping_neg()),
        _ => answer,
    }),
    ("compare looks at keys alone", |before, _, call, answer| match call {
        Call::Compare { s, t } if answer != Answer::Refused(NO_VERSION) => {
            let keys = |s| entries(before, s).into_iter().map(|(key, _)| key).collect::<Vec<u32>>();
            Answer::Word(keys(s).cmp(&keys(t)) as i32 as u32)
        }
        _ => answer,
    }),
    ("compare looks at sizes first", |before, _, call, answer| match call {
        Call::Compare { s, t } if answer != Answer::Refused(NO_VERSION) => {
            let listed = |s| (entries(before, s).len(), entries(before, s));
            Answer::Word(listed(s).cmp(&listed(t)) as i32 as u32)
        }
        _ => answer,
    }),
    ("equal looks at sizes alone", |before, _, call, answer| match call {
        Call::Equal { s, t } if answer != Answer::Refused(NO_VERSION) => {
            truth(entries(before, s).len() == entries(before, t).len())
        }
        _ => answer,
    }),
    ("equal looks at roots", |before, _, call, answer| match call {
        Call::Equal { s, t } if answer != Answer::Refused(NO_VERSION) => {
            truth(layout::slot(before, s).0 == layout::slot(before, t).0)
        }
        _ => answer,
    }),
    ("END after the first step at the front", |_, _, call, answer| match (call, answer) {
        (Call::Step { end: End::Front, walk }, Answer::Entry(..)) if walk.front.0 != 0 => Answer::Refused(END),
        _ => answer,
    }),
    ("a back step does not mind the front", |before, _, call, answer| match (call, answer) {
        (Call::Step { end: End::Back, walk }, Answer::Refused(END)) if walk.front.0 != 0 && walk.back.0 == 0 => {
            nth(before, walk.slot, 0).unwrap_or(answer)
        }
        _ => answer,
    }),
    ("a step gives the last key again", |before, _, call, answer| match (call, answer) {
        (Call::Step { end: End::Front, walk }, Answer::Refused(END)) if walk.front.0 != 0 => {
            let again = entries(before, walk.slot).into_iter().find(|(key, _)| *key == walk.front.1);
            again.map_or(answer, |(key, value)| Answer::Entry(key, value))
        }
        _ => answer,
    }),
    ("included 5 to excluded 5 is a bad range", |_, _, call, answer| match (call, answer) {
        (Call::Step { walk, .. }, Answer::Refused(END))
            if walk.start.kind == 1 && walk.end.kind == 2 && walk.start.key == walk.end.key =>
        {
            Answer::Refused(BAD_RANGE)
        }
        _ => answer,
    }),
    ("excluded 5 to excluded 5 is END", |_, _, call, answer| match (call, answer) {
        (Call::Step { walk, .. }, Answer::Refused(BAD_RANGE)) if walk.start.key == walk.end.key => Answer::Refused(END),
        _ => answer,
    }),
    ("6 to 5 is END", |_, _, call, answer| match (call, answer) {
        (Call::Step { walk, .. }, Answer::Refused(BAD_RANGE)) if walk.start.key != walk.end.key => Answer::Refused(END),
        _ => answer,
    }),
    ("a bound of kind 3 is included", |_, _, call, answer| match (call, answer) {
        (Call::Step { end: End::Front, walk }, Answer::Entry(key, _))
            if walk.start.kind > 2 && key < walk.start.key =>
        {
            Answer::Refused(END)
        }
        _ => answer,
    }),
    ("no version has the rescale mark", |_, _, call, answer| match (call, answer) {
        (Call::RescaleMark { .. }, Answer::Word(1)) => Answer::Word(0),
        _ => answer,
    }),
    ("the mark is that of (0028,1052)", |before, _, call, answer| match (call, answer) {
        (Call::RescaleMark { s }, Answer::Word(_)) => {
            truth(entries(before, s).into_iter().any(|(key, _)| key == 2_625_618))
        }
        _ => answer,
    }),
    ("an arena with no free node is not sound", |before, _, call, answer| match call {
        Call::Sound if before[layout::HEAD] == 0 => Answer::Word(0),
        _ => answer,
    }),
    ("NO_ROOM is tested before NO_SLOT", |before, _, call, answer| match (call, answer) {
        (Call::Insert { .. }, Answer::Refused(NO_SLOT)) if before[layout::HEAD] == 0 => Answer::Refused(NO_ROOM),
        _ => answer,
    }),
    ("NO_SLOT is tested before NO_VERSION", |before, _, call, answer| match (call, answer) {
        (Call::Hold { .. }, Answer::Refused(NO_VERSION)) if all_held(before) => Answer::Refused(NO_SLOT),
        _ => answer,
    }),
    ("BAD_RANGE is tested before NO_VERSION", |_, _, call, answer| match (call, answer) {
        (Call::Step { walk, .. }, Answer::Refused(NO_VERSION))
            if crate::model::bad_range(crate::model::bounds(&walk)) =>
        {
            Answer::Refused(BAD_RANGE)
        }
        _ => answer,
    }),
    ("insert asks for one node more", |before, lent, call, answer| match (call, answer) {
        (Call::Insert { s, .. }, Answer::Word(_)) => {
            let reserve = crate::model::h(layout::slot(before, s).1 as usize) + 1;
            refused_at(reserve, before, lent, answer)
        }
        _ => answer,
    }),
    ("remove asks for one node more", |before, lent, call, answer| match (call, answer) {
        (Call::Remove { s, key }, Answer::Word(_)) if entries(before, s).iter().any(|e| e.0 == key) => {
            let reserve = 6 * crate::model::h(layout::slot(before, s).1 as usize) + 2;
            refused_at(reserve, before, lent, answer)
        }
        _ => answer,
    }),
    ("remove of an absent key asks for a node", |before, lent, call, answer| match (call, answer) {
        (Call::Remove { .. }, Answer::Word(_)) => refused_at(0, before, lent, answer),
        _ => answer,
    }),
    ("format takes V = 33", |_, _, call, answer| match call {
        Call::Format { v: 33, .. } => Answer::Done,
        _ => answer,
    }),
    ("a refusal is written over", |_, _, _, answer| match answer {
        Answer::Refused(NO_ROOM) => Answer::Astray,
        _ => answer,
    }),
];

pub fn entries(words: &[u32], s: u32) -> Vec<(u32, u32)> {
    layout::listing(words, layout::slot(words, s).0)
}

pub fn held(words: &[u32], s: u32) -> bool {
    (s as usize) < layout::slots(words) && layout::slot(words, s).0 != layout::NOT_HELD
}

fn all_held(words: &[u32]) -> bool {
    (0..layout::slots(words) as u32).all(|s| held(words, s))
}

/// An entry of a slot by its place in the listing, if there is one.
fn nth(words: &[u32], s: u32, place: usize) -> Option<Answer> {
    let (key, value) = *entries(words, if held(words, s) { s } else { return None }).get(place)?;
    Some(Answer::Entry(key, value))
}

fn get_before(words: &[u32], _: &mut Lent, call: Call, answer: Answer) -> Answer {
    match (call, answer) {
        (Call::Get { s, key }, Answer::Word(_)) => {
            let before = entries(words, s).into_iter().rfind(|(k, _)| *k < key);
            before.map_or(answer, |(_, value)| Answer::Word(value))
        }
        _ => answer,
    }
}

/// NO_ROOM, and the words as they were, where exactly so many nodes are free.
fn refused_at(reserve: usize, before: &[u32], lent: &mut Lent, answer: Answer) -> Answer {
    if Library.call(&mut Lent::new(before), Call::FreeNodes) != Answer::Word(reserve as u32) {
        return answer;
    }
    lent.words_mut().copy_from_slice(before);
    Answer::Refused(NO_ROOM)
}
