//! For theorems: the tree before and the tree after as terms in the syntax of `crates/trees/specs/Tree.antt`.
use steps::tree::{Color, Entry, Place, Tree};

pub fn print(command: &str, before: &Tree, after: &Tree) {
    println!("-- {command}");
    println!("before {}", term(before));
    println!("after  {}", term(after));
}

fn term(t: &Tree) -> String {
    let Tree::Node(n) = t else {
        return String::from("leaf");
    };
    let color = match n.color {
        Color::Red => "red",
        Color::Black => "black",
    };
    format!("node {} {color} {} {} {}", place(n.place), inner(&n.left), entry(n.entry), inner(&n.right))
}

/// A term that stands as an argument.
fn inner(t: &Tree) -> String {
    match t {
        Tree::Leaf => term(t),
        Tree::Node(_) => format!("({})", term(t)),
    }
}

fn place(p: Place) -> String {
    match p {
        Place::Kept(number) => format!("(kept {number})"),
        Place::Fresh => String::from("fresh"),
    }
}

/// `e K` is the entry whose key and value are both K.
fn entry(e: Entry) -> String {
    if e.key == e.value {
        format!("(e {})", e.key)
    } else {
        format!("(record {{ key = {}; value = {} }})", e.key, e.value)
    }
}
