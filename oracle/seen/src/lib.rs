//! rpds's private nodes, seen from outside: each with its colour, its entry and its address.
#![forbid(unsafe_code)]

mod text;

use rpds::RedBlackTreeMap;
use std::collections::HashMap;
use steps::tree::{Color, Entry, Place, Tree, node};

/// The map that is looked at.
pub type Map = RedBlackTreeMap<u32, u32>;

/// A map of rpds as it stands in memory.
#[derive(Debug, PartialEq, Eq)]
pub struct Seen {
    pub root: Option<Box<SeenNode>>,
    pub size: usize,
}

/// One of rpds's nodes.
#[derive(Debug, PartialEq, Eq)]
pub struct SeenNode {
    pub address: usize,
    pub color: Color,
    pub left: Option<Box<SeenNode>>,
    pub entry: Entry,
    pub right: Option<Box<SeenNode>>,
}

/// The numbers that the nodes of a map are given, by their addresses. They mean something while that map is held.
pub type Numbers = HashMap<usize, usize>;

impl Seen {
    /// Reads the map through the `Debug` that rpds derives.
    pub fn of(map: &Map) -> Seen {
        text::read(&archery::with_addresses(|| format!("{map:?}")))
    }

    /// Numbers the nodes in listing order, from 1.
    pub fn numbers(&self) -> Numbers {
        let mut numbers = Numbers::with_capacity(self.size);
        number(&self.root, &mut numbers);
        numbers
    }

    /// The plain tree: a node whose address has a number is kept, any other is fresh.
    pub fn tree(&self, numbers: &Numbers) -> Tree {
        plain(&self.root, numbers)
    }
}

fn number(root: &Option<Box<SeenNode>>, numbers: &mut Numbers) {
    if let Some(seen) = root {
        number(&seen.left, numbers);
        numbers.insert(seen.address, numbers.len() + 1);
        number(&seen.right, numbers);
    }
}

fn plain(root: &Option<Box<SeenNode>>, numbers: &Numbers) -> Tree {
    let Some(seen) = root else { return Tree::Leaf };
    let place = numbers.get(&seen.address).map_or(Place::Fresh, |number| Place::Kept(*number));
    node(place, seen.color, plain(&seen.left, numbers), seen.entry, plain(&seen.right, numbers))
}

/// A tree in short: `(b 2 (r* 1 . .) .)` is a black node of key 2 above a red one of key 1, which is fresh.
pub fn shape(t: &Tree) -> String {
    let Tree::Node(n) = t else {
        return String::from(".");
    };
    let color = match n.color {
        Color::Red => "r",
        Color::Black => "b",
    };
    let star = if n.place == Place::Fresh { "*" } else { "" };
    format!("({color}{star} {} {} {})", n.entry.key, shape(&n.left), shape(&n.right))
}
