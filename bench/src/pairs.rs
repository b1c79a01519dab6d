//! The pairs of versions whose differences are timed, in arenas of N = 2,047 and V = 32.
use crate::arena::{Arena, Edit, Plan};
use crate::pair::Pair;
use crate::revision::Revision;
use library::layout::{node, slot};

const N: u32 = 2047;
const V: u32 = 32;

/// So many edits lie between two versions where it is not one.
const EDITS: usize = 40;

/// A value that no entry has before it is edited.
const EDITED: u32 = 10_000;

/// All pairs. The present revision, and the earlier one if it has the difference step, gives their
/// differences.
pub fn checked(revisions: &[Revision]) -> Vec<Pair> {
    let now = &revisions[revisions.len() - 1];
    assert!(now.difference.is_there(), "{}: there is a difference step", now.name);
    let sharing = one_edit().into_iter().chain(many_edits());
    let pairs: Vec<Pair> = sharing.chain(built_apart()).collect();
    pairs.iter().for_each(|pair| revisions.iter().for_each(|revision| pair.check(revision)));
    pairs
}

/// 2,000 entries leave fewer free nodes than a removal asks for.
fn one_edit() -> [Pair; 3] {
    [
        edited_once("2,000 entries, a value changed", 2000, |key| Edit::Set(key, EDITED)),
        edited_once("1,999 entries, one added", 1999, |key| Edit::Set(key + 1, EDITED)),
        edited_once("1,900 entries, one removed", 1900, Edit::Cut),
    ]
}

/// Edits that are spread over the listing copy more nodes than 2,000 entries leave.
fn many_edits() -> [Pair; 3] {
    [
        edited("1,960 entries, 40 added with keys in a row", 1960, added_in_a_row),
        edited("1,800 entries, 40 values changed, spread", 1800, changed),
        edited("1,600 entries, 40 edits by turns, spread", 1600, edited_by_turns),
    ]
}

/// Versions that share no node: the nodes do not suffice for two of 2,000 entries.
fn built_apart() -> [Pair; 2] {
    let last = Arena::built_apart(N, V, 1000);
    let every = Arena::apart(N, V, 1000, EDITED);
    [
        Pair::new("1,000 entries, the last value differs, built apart", last, 1),
        Pair::new("1,000 entries, every value differs, built apart", every, 1000),
    ]
}

/// A version of so many entries and what the edits make of it.
fn edited(name: &'static str, entries: usize, edits: impl Fn(&Arena) -> Vec<Edit>) -> Pair {
    let mut arena = Arena::new(Plan { n: N, v: V, entries, versions: 1 }, 0);
    let edits = edits(&arena);
    let count = edits.len();
    arena.edit(edits);
    Pair::new(name, arena, count)
}

/// The edit is made at the end of the longest way down, so that no single one copies more nodes.
fn edited_once(name: &'static str, entries: usize, edit: impl Fn(u32) -> Edit) -> Pair {
    edited(name, entries, |arena| vec![edit(deepest(arena))])
}

fn added_in_a_row(arena: &Arena) -> Vec<Edit> {
    let below = deepest(arena);
    (1..=EDITS as u32).map(|i| Edit::Set(below + i, EDITED)).collect()
}

fn changed(arena: &Arena) -> Vec<Edit> {
    arena.some_keys(EDITS).into_iter().map(|key| Edit::Set(key, EDITED)).collect()
}

/// A value changed, an entry added, an entry removed.
fn edited_by_turns(arena: &Arena) -> Vec<Edit> {
    let (there, absent) = (arena.some_keys(EDITS), arena.other_keys(EDITS));
    let edit = |i: usize| match i % 3 {
        0 => Edit::Set(there[i], EDITED),
        1 => Edit::Set(absent[i], EDITED),
        _ => Edit::Cut(there[i]),
    };
    (0..EDITS).map(edit).collect()
}

/// The key at the end of the longest way down the newest version.
fn deepest(arena: &Arena) -> u32 {
    let words = arena.lent.words();
    deepest_below(words, slot(words, arena.newest()).0).1
}

/// How many nodes the longest way down from a link has, and the key at its end.
fn deepest_below(words: &[u32], link: u32) -> (usize, u32) {
    if link == 0 {
        return (0, 0);
    }
    let top = node(words, link);
    let (depth, key) = deepest_below(words, top.left).max(deepest_below(words, top.right));
    (depth + 1, if depth == 0 { top.key } else { key })
}
