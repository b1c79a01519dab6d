//! `crates/trees/specs/Lookup.antt`
use crate::listing::or_else;
use crate::range::{End, Range, after_front, before_back};
use crate::tree::{Entry, Tree};

/// Lookup.antt: get
pub fn get(k: u32, t: &Tree) -> Option<Entry> {
    let Tree::Node(n) = t else { return None };
    if k < n.entry.key {
        get(k, &n.left)
    } else if n.entry.key < k {
        get(k, &n.right)
    } else {
        Some(n.entry)
    }
}

/// Lookup.antt: has
pub fn has(k: u32, t: &Tree) -> bool {
    let Tree::Node(n) = t else { return false };
    if k < n.entry.key {
        has(k, &n.left)
    } else if n.entry.key < k {
        has(k, &n.right)
    } else {
        true
    }
}

/// Lookup.antt: path
pub fn path(k: u32, t: &Tree) -> usize {
    let Tree::Node(n) = t else { return 0 };
    if k < n.entry.key {
        1 + path(k, &n.left)
    } else if n.entry.key < k {
        1 + path(k, &n.right)
    } else {
        1
    }
}

/// Lookup.antt: first
pub fn first(t: &Tree) -> Option<Entry> {
    let Tree::Node(n) = t else { return None };
    or_else(first(&n.left), n.entry)
}

/// Lookup.antt: last
pub fn last(t: &Tree) -> Option<Entry> {
    let Tree::Node(n) = t else { return None };
    or_else(last(&n.right), n.entry)
}

/// Lookup.antt: least
pub fn least(p: &dyn Fn(u32) -> bool, t: &Tree) -> Option<Entry> {
    let Tree::Node(n) = t else { return None };
    if p(n.entry.key) { or_else(least(p, &n.left), n.entry) } else { least(p, &n.right) }
}

/// Lookup.antt: greatest
pub fn greatest(p: &dyn Fn(u32) -> bool, t: &Tree) -> Option<Entry> {
    let Tree::Node(n) = t else { return None };
    if p(n.entry.key) { or_else(greatest(p, &n.right), n.entry) } else { greatest(p, &n.left) }
}

/// Lookup.antt: within
pub fn within(p: &dyn Fn(u32) -> bool, found: Option<Entry>) -> Option<Entry> {
    match found {
        None => None,
        Some(e) => {
            if p(e.key) {
                Some(e)
            } else {
                None
            }
        }
    }
}

/// Lookup.antt: step
pub fn step(end: End, w: &Range, t: &Tree) -> Option<Entry> {
    match end {
        End::Front => within(&|k| before_back(w, k), least(&|k| after_front(w, k), t)),
        End::Back => within(&|k| after_front(w, k), greatest(&|k| before_back(w, k), t)),
    }
}
