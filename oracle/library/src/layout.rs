//! The arena's words read by docs/LAYOUT.md.

/// The root of a slot that is not held.
pub const NOT_HELD: u32 = u32::MAX;

pub const HEAD: usize = 2;
pub const SPARE: std::ops::Range<usize> = 3..8;

#[derive(Clone, Copy, Debug, PartialEq, Eq)]
pub struct Node {
    pub key: u32,
    pub value: u32,
    pub left: u32,
    pub right: u32,
    pub color: u32,
    pub count: u32,
}

pub fn nodes(words: &[u32]) -> usize {
    words[0] as usize
}

pub fn slots(words: &[u32]) -> usize {
    words[1] as usize
}

/// Where node i begins, 1 to N.
pub fn node_at(i: usize) -> usize {
    6 * i + 2
}

/// Where slot s begins, 0 to V less 1.
pub fn slot_at(words: &[u32], s: usize) -> usize {
    6 * nodes(words) + 8 + 2 * s
}

pub fn node(words: &[u32], i: u32) -> Node {
    let [key, value, left, right, color, count] = words[node_at(i as usize)..][..6] else { unreachable!() };
    Node { key, value, left, right, color, count }
}

/// A slot's root and size.
pub fn slot(words: &[u32], s: u32) -> (u32, u32) {
    let at = slot_at(words, s as usize);
    (words[at], words[at + 1])
}

/// The keys and values below a root in listing order, of a sound arena.
pub fn listing(words: &[u32], root: u32) -> Vec<(u32, u32)> {
    let mut entries = Vec::new();
    list(words, root, &mut entries);
    entries
}

fn list(words: &[u32], link: u32, entries: &mut Vec<(u32, u32)>) {
    if link != 0 {
        let n = node(words, link);
        list(words, n.left, entries);
        entries.push((n.key, n.value));
        list(words, n.right, entries);
    }
}
