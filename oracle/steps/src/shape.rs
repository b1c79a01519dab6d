//! `crates/trees/specs/Shape.antt`
use crate::listing::ascending;
use crate::tree::{Color, Tree, is_red, listing};

/// Shape.antt: Rb; the number of black nodes on each way down, where the tree has the red-black shape.
pub fn rb(t: &Tree) -> Option<usize> {
    let Tree::Node(n) = t else { return Some(0) };
    let blacks = rb(&n.left)?;
    if rb(&n.right)? != blacks {
        return None;
    }
    match n.color {
        Color::Red => (!is_red(&n.left) && !is_red(&n.right)).then_some(blacks),
        Color::Black => Some(blacks + 1),
    }
}

/// Shape.antt: Fine
pub fn fine(t: &Tree) -> bool {
    ascending(&listing(t)) && !is_red(t) && rb(t).is_some()
}
