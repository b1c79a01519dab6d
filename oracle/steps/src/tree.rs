//! `crates/trees/specs/Tree.antt`
use std::rc::Rc;

/// Tree.antt: Entry
#[derive(Clone, Copy, Debug, PartialEq, Eq)]
pub struct Entry {
    pub key: u32,
    pub value: u32,
}

/// Tree.antt: Color
#[derive(Clone, Copy, Debug, PartialEq, Eq)]
pub enum Color {
    Red,
    Black,
}

/// Tree.antt: Place
#[derive(Clone, Copy, Debug, PartialEq, Eq)]
pub enum Place {
    Kept(usize),
    Fresh,
}

/// Tree.antt: Tree
#[derive(Clone, Debug, PartialEq, Eq)]
pub enum Tree {
    Leaf,
    Node(Rc<Node>),
}

/// What the constructor `node` of Tree.antt holds.
#[derive(Clone, Debug, PartialEq, Eq)]
pub struct Node {
    pub place: Place,
    pub color: Color,
    pub left: Tree,
    pub entry: Entry,
    pub right: Tree,
}

/// Tree.antt: node
pub fn node(place: Place, color: Color, left: Tree, entry: Entry, right: Tree) -> Tree {
    Tree::Node(Rc::new(Node { place, color, left, entry, right }))
}

/// Tree.antt: lf
pub fn lf(t: &Tree) -> Tree {
    match t {
        Tree::Leaf => Tree::Leaf,
        Tree::Node(n) => n.left.clone(),
    }
}

/// Tree.antt: rt
pub fn rt(t: &Tree) -> Tree {
    match t {
        Tree::Leaf => Tree::Leaf,
        Tree::Node(n) => n.right.clone(),
    }
}

/// Tree.antt: en
pub fn en(t: &Tree) -> Entry {
    match t {
        Tree::Leaf => Entry { key: 0, value: 0 },
        Tree::Node(n) => n.entry,
    }
}

/// Tree.antt: isRed
pub fn is_red(t: &Tree) -> bool {
    match t {
        Tree::Leaf => false,
        Tree::Node(n) => n.color == Color::Red,
    }
}

/// Tree.antt: isBlack
pub fn is_black(t: &Tree) -> bool {
    match t {
        Tree::Leaf => false,
        Tree::Node(n) => n.color == Color::Black,
    }
}

/// Tree.antt: paint
pub fn paint(c: Color, t: &Tree) -> Tree {
    match t {
        Tree::Leaf => Tree::Leaf,
        Tree::Node(n) => node(Place::Fresh, c, n.left.clone(), n.entry, n.right.clone()),
    }
}

/// Tree.antt: copy
pub fn copy(t: &Tree) -> Tree {
    match t {
        Tree::Leaf => Tree::Leaf,
        Tree::Node(n) => node(Place::Fresh, n.color, n.left.clone(), n.entry, n.right.clone()),
    }
}

/// Tree.antt: listing
pub fn listing(t: &Tree) -> Vec<Entry> {
    let mut list = Vec::new();
    list_onto(&mut list, t);
    list
}

/// Tree.antt: listing, put after what the list has, as copying at each `++` would take too long.
fn list_onto(list: &mut Vec<Entry>, t: &Tree) {
    if let Tree::Node(n) = t {
        list_onto(list, &n.left);
        list.push(n.entry);
        list_onto(list, &n.right);
    }
}

/// Tree.antt: size
pub fn size(t: &Tree) -> usize {
    match t {
        Tree::Leaf => 0,
        Tree::Node(n) => 1 + (size(&n.left) + size(&n.right)),
    }
}

/// Tree.antt: height
pub fn height(t: &Tree) -> usize {
    match t {
        Tree::Leaf => 0,
        Tree::Node(n) => 1 + height(&n.left).max(height(&n.right)),
    }
}

/// Tree.antt: one
pub fn one(p: Place) -> usize {
    match p {
        Place::Kept(_) => 0,
        Place::Fresh => 1,
    }
}

/// Tree.antt: made
pub fn made(t: &Tree) -> usize {
    match t {
        Tree::Leaf => 0,
        Tree::Node(n) => one(n.place) + (made(&n.left) + made(&n.right)),
    }
}
