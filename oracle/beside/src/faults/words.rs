//! Faults in the words that a call leaves.
use super::Spoil;
use library::call::{Answer, Call};
use library::layout::{self, HEAD, NOT_HELD, node, node_at, slot, slot_at};
use library::lent::Lent;

const VALUE: usize = 1;
const LEFT: usize = 2;
const RIGHT: usize = 3;
const COLOR: usize = 4;
const COUNT: usize = 5;

pub const FAULTS: &[(&str, Spoil)] = &[
    ("three black nodes become a black one above two red ones: sound, and lists the same", |_, lent, call, answer| {
        after_edit(lent, call, answer, |words, new| {
            let (root, size) = slot(words, new);
            let n = node(words, root);
            let own_and_black = |child| child != 0 && node(words, child).color == 1 && node(words, child).count == 1;
            if size == 3 && n.count == 1 && own_and_black(n.left) && own_and_black(n.right) {
                *word(words, n.left, COLOR) = 0;
                *word(words, n.right, COLOR) = 0;
            }
        })
    }),
    ("a version of two entries leans the other way: sound, and lists the same", |_, lent, call, answer| {
        after_edit(lent, call, answer, lean)
    }),
    ("the root turns red above 1,000 entries", |_, lent, call, answer| {
        after_edit(lent, call, answer, |words, new| {
            let (root, size) = slot(words, new);
            *word(words, root, COLOR) = u32::from(size <= 1000);
        })
    }),
    ("the root turns red", |_, lent, call, answer| {
        after_edit(lent, call, answer, |words, new| *word(words, slot(words, new).0, COLOR) = 0)
    }),
    ("a shared node's value changes", |_, lent, call, answer| {
        after_edit(lent, call, answer, |words, new| {
            if let Some(shared) = shared_child(words, slot(words, new).0) {
                *word(words, shared, VALUE) ^= 1;
            }
        })
    }),
    ("the new root's value changes", |_, lent, call, answer| {
        after_edit(lent, call, answer, |words, new| *word(words, slot(words, new).0, VALUE) ^= 1)
    }),
    ("a count is one too high", |_, lent, call, answer| {
        after_edit(lent, call, answer, |words, new| *word(words, slot(words, new).0, COUNT) += 1)
    }),
    ("the root's children are exchanged", |_, lent, call, answer| {
        after_edit(lent, call, answer, |words, new| {
            let root = slot(words, new).0;
            let n = node(words, root);
            *word(words, root, LEFT) = n.right;
            *word(words, root, RIGHT) = n.left;
        })
    }),
    ("replacing raises the size", |before, lent, call, answer| match (call, answer) {
        (Call::Insert { s, .. }, Answer::Word(new)) if slot(before, s).1 == slot(lent.words(), new).1 => {
            let at = slot_at(lent.words(), new as usize) + 1;
            lent.words_mut()[at] += 1;
            answer
        }
        _ => answer,
    }),
    ("a node is copied that could be shared: sound, and lists the same", |_, lent, call, answer| {
        after_edit(lent, call, answer, |words, new| {
            let root = slot(words, new).0;
            if let Some(shared) = shared_child(words, root) {
                copy_child(words, root, shared);
            }
        })
    }),
    ("remove of an absent key copies the root", |before, lent, call, answer| match (call, answer) {
        (Call::Remove { s, .. }, Answer::Word(new)) if slot(before, s) == slot(lent.words(), new) => {
            copy_root(lent.words_mut(), new);
            answer
        }
        _ => answer,
    }),
    ("insert of a new key hands out the parent", |before, lent, call, answer| match (call, answer) {
        (Call::Insert { s, .. }, Answer::Word(new)) if slot(before, s).1 != slot(lent.words(), new).1 => {
            hand_out_parent(before, lent, s, new);
            answer
        }
        _ => answer,
    }),
    ("insert over a key that is there hands out the parent", |before, lent, call, answer| match (call, answer) {
        (Call::Insert { s, .. }, Answer::Word(new)) if slot(before, s).1 == slot(lent.words(), new).1 => {
            hand_out_parent(before, lent, s, new);
            answer
        }
        _ => answer,
    }),
    ("remove hands out the parent", |before, lent, call, answer| match (call, answer) {
        (Call::Remove { s, .. }, Answer::Word(new)) => {
            hand_out_parent(before, lent, s, new);
            answer
        }
        _ => answer,
    }),
    ("hold hands out an empty version", |before, lent, call, answer| match (call, answer) {
        (Call::Hold { .. }, Answer::Word(new)) => {
            lent.words_mut().copy_from_slice(before);
            set_slot(lent.words_mut(), new, (0, 0));
            answer
        }
        _ => answer,
    }),
    ("the highest slot is handed out", |_, lent, call, answer| match (call, answer) {
        (Call::New, Answer::Word(new)) => {
            let words = lent.words_mut();
            let free = (0..layout::slots(words) as u32).rfind(|s| slot(words, *s).0 == NOT_HELD);
            let highest = free.unwrap_or(new);
            set_slot(words, new, (NOT_HELD, 0));
            set_slot(words, highest, (0, 0));
            Answer::Word(highest)
        }
        _ => answer,
    }),
    ("release loses a node", |before, lent, call, answer| match (call, answer) {
        (Call::Release { .. }, Answer::Done) if before[HEAD] != lent.words()[HEAD] => {
            let head = lent.words()[HEAD];
            lent.words_mut()[HEAD] = node(before, head).left.min(layout::nodes(before) as u32);
            answer
        }
        _ => answer,
    }),
    ("release frees nothing", |before, lent, call, answer| match (call, answer) {
        (Call::Release { s }, Answer::Done) => {
            lent.words_mut().copy_from_slice(before);
            set_slot(lent.words_mut(), s, (NOT_HELD, 0));
            answer
        }
        _ => answer,
    }),
    ("release does nothing", |before, lent, call, answer| {
        if matches!(call, Call::Release { .. }) {
            lent.words_mut().copy_from_slice(before);
        }
        answer
    }),
    ("release counts a shared child down twice", |before, lent, call, answer| match (call, answer) {
        (Call::Release { s }, Answer::Done) => {
            let root = slot(before, s).0;
            if root != 0 && node(lent.words(), root).count == 0 {
                let left = node(before, root).left;
                if left != 0 && node(lent.words(), left).count > 1 {
                    *word(lent.words_mut(), left, COUNT) -= 1;
                }
            }
            answer
        }
        _ => answer,
    }),
    ("insert writes a spare word", |_, lent, call, answer| after_edit(lent, call, answer, |words, _| words[7] += 1)),
    ("a refused call writes a spare word", |_, lent, _, answer| {
        if matches!(answer, Answer::Refused(_)) {
            lent.words_mut()[3] += 1;
        }
        answer
    }),
    ("get writes a free node's key", |before, lent, call, answer| {
        if matches!(call, Call::Get { .. }) && before[HEAD] != 0 {
            lent.words_mut()[node_at(before[HEAD] as usize)] += 1;
        }
        answer
    }),
    ("remove writes behind the words", |_, lent, call, answer| {
        if matches!((call, answer), (Call::Remove { .. }, Answer::Word(_))) {
            *lent.beyond() += 1;
        }
        answer
    }),
    ("two slots change places", |_, lent, call, answer| {
        after_edit(lent, call, answer, |words, new| {
            let (zero, other) = (slot(words, 0), slot(words, new));
            set_slot(words, 0, other);
            set_slot(words, new, zero);
        })
    }),
    ("format lists the free nodes backwards: sound", |_, lent, call, answer| match (call, answer) {
        (Call::Format { n, .. }, Answer::Done) => {
            for i in 1..=n {
                *word(lent.words_mut(), i, LEFT) = i - 1;
            }
            lent.words_mut()[HEAD] = n;
            answer
        }
        _ => answer,
    }),
    ("format keeps a spare word", |before, lent, call, answer| {
        if matches!((call, answer), (Call::Format { .. }, Answer::Done)) {
            lent.words_mut()[5] = before[5];
        }
        answer
    }),
    ("format holds slot 0", |_, lent, call, answer| {
        if matches!((call, answer), (Call::Format { .. }, Answer::Done)) {
            set_slot(lent.words_mut(), 0, (0, 0));
        }
        answer
    }),
];

fn word(words: &mut [u32], i: u32, which: usize) -> &mut u32 {
    &mut words[node_at(i as usize) + which]
}

fn set_slot(words: &mut [u32], s: u32, (root, size): (u32, u32)) {
    let at = slot_at(words, s as usize);
    words[at] = root;
    words[at + 1] = size;
}

/// Spoils the words after an accepted insert or remove that left a version with entries in a slot.
fn after_edit(lent: &mut Lent, call: Call, answer: Answer, spoil: fn(&mut [u32], u32)) -> Answer {
    if let (Call::Insert { .. } | Call::Remove { .. }, Answer::Word(new)) = (call, answer)
        && slot(lent.words(), new).0 != 0
    {
        spoil(lent.words_mut(), new);
    }
    answer
}

/// A child that another version has too.
fn shared_child(words: &[u32], root: u32) -> Option<u32> {
    let n = node(words, root);
    [n.left, n.right].into_iter().find(|child| *child != 0 && node(words, *child).count > 1)
}

/// A black root with a red right child becomes that child, black, with the root red at its left, where no other version has them.
fn lean(words: &mut [u32], new: u32) {
    let (root, size) = slot(words, new);
    let n = node(words, root);
    if size != 2 || n.right == 0 || n.count != 1 || node(words, n.right).count != 1 {
        return;
    }
    *word(words, root, RIGHT) = 0;
    *word(words, root, COLOR) = 0;
    *word(words, n.right, LEFT) = root;
    *word(words, n.right, COLOR) = 1;
    set_slot(words, new, (n.right, size));
}

/// Takes a free node, if there is one, and makes it a copy of another.
fn copy(words: &mut [u32], i: u32) -> Option<u32> {
    let taken = words[HEAD];
    if taken == 0 {
        return None;
    }
    words[HEAD] = node(words, taken).left;
    let n = node(words, i);
    let at = node_at(taken as usize);
    words[at..at + 6].copy_from_slice(&[n.key, n.value, n.left, n.right, n.color, 1]);
    for child in [n.left, n.right].into_iter().filter(|child| *child != 0) {
        *word(words, child, COUNT) += 1;
    }
    *word(words, i, COUNT) -= 1;
    Some(taken)
}

fn copy_child(words: &mut [u32], parent: u32, child: u32) {
    if let Some(taken) = copy(words, child) {
        let which = if node(words, parent).left == child { LEFT } else { RIGHT };
        *word(words, parent, which) = taken;
    }
}

fn copy_root(words: &mut [u32], s: u32) {
    let (root, size) = slot(words, s);
    if root != 0
        && let Some(taken) = copy(words, root)
    {
        set_slot(words, s, (taken, size));
    }
}

/// The words as they were, but for the new slot, which holds the parent.
fn hand_out_parent(before: &[u32], lent: &mut Lent, s: u32, new: u32) {
    let words = lent.words_mut();
    words.copy_from_slice(before);
    let parent = slot(before, s);
    set_slot(words, new, parent);
    if parent.0 != 0 {
        *word(words, parent.0, COUNT) += 1;
    }
}
