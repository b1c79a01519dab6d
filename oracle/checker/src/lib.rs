//! Whether words are a sound arena: document 01's eight demands one by one over docs/LAYOUT.md, with no code of the library's.
//!
//! Plain and slow on purpose: each held slot's tree is read whole, node by node.
#![forbid(unsafe_code)]

mod tree;

use tree::Tree;

const RED: u32 = 0;
const BLACK: u32 = 1;
const NOT_HELD: u32 = u32::MAX;

/// A demand that can be left out, to see that the damaged arenas tell the difference.
#[derive(Clone, Copy, Debug, PartialEq, Eq)]
pub enum Demand {
    NodesInLimits,
    SlotsInLimits,
    Length,
    LinksNameNodes,
    TreesFinite,
    ColorsKnown,
    RootsBlack,
    KeysAscend,
    NoRedBelowRed,
    BlackAlike,
    SizesTrue,
    SizeOfNotHeld,
    CountsTrue,
    FreeCountsZero,
    FreeLinksNameNodes,
    FreeListed,
    FreeListedOnce,
    OnlyFreeListed,
}

impl Demand {
    pub const ALL: [Demand; 18] = [
        Demand::NodesInLimits,
        Demand::SlotsInLimits,
        Demand::Length,
        Demand::LinksNameNodes,
        Demand::TreesFinite,
        Demand::ColorsKnown,
        Demand::RootsBlack,
        Demand::KeysAscend,
        Demand::NoRedBelowRed,
        Demand::BlackAlike,
        Demand::SizesTrue,
        Demand::SizeOfNotHeld,
        Demand::CountsTrue,
        Demand::FreeCountsZero,
        Demand::FreeLinksNameNodes,
        Demand::FreeListed,
        Demand::FreeListedOnce,
        Demand::OnlyFreeListed,
    ];
}

pub fn sound(words: &[u32]) -> bool {
    sound_without(words, None)
}

/// The same with one demand left out, where it can be.
pub fn sound_without(words: &[u32], left_out: Option<Demand>) -> bool {
    Checker { words, left_out }.all()
}

struct Checker<'a> {
    words: &'a [u32],
    left_out: Option<Demand>,
}

/// What the held slots reach.
struct Trees {
    /// Each held slot's number and tree.
    held: Vec<(usize, Tree)>,
    /// By node number; 0 is no node.
    reached: Vec<bool>,
}

impl Checker<'_> {
    fn demands(&self, demand: Demand, met: bool) -> bool {
        met || self.left_out == Some(demand)
    }

    fn all(&self) -> bool {
        self.shape()
            && self.trees().is_some_and(|trees| self.versions(&trees) && self.counts(&trees) && self.free(&trees))
    }

    fn nodes(&self) -> usize {
        self.words[0] as usize
    }

    fn slots(&self) -> usize {
        self.words[1] as usize
    }

    /// A word of node i: 0 key, 1 value, 2 left link, 3 right link, 4 colour, 5 count.
    fn node_word(&self, i: usize, which: usize) -> u32 {
        self.words[6 * i + 2 + which]
    }

    fn root(&self, s: usize) -> u32 {
        self.words[6 * self.nodes() + 8 + 2 * s]
    }

    fn size(&self, s: usize) -> u32 {
        self.words[6 * self.nodes() + 9 + 2 * s]
    }

    /// "The N and V it records are within their limits and agree with its length."
    fn shape(&self) -> bool {
        let [n, v, ..] = *self.words else { return false };
        // What the other demands read has to be there, whatever is left out.
        let (nodes, slots) = (u64::from(n), u64::from(v));
        let needed = 8 + 2 * slots + 6 * nodes;
        let length = self.words.len() as u64;
        self.demands(Demand::NodesInLimits, (1..=2047).contains(&n))
            && self.demands(Demand::SlotsInLimits, (1..=32).contains(&v))
            && self.demands(Demand::Length, length == needed)
            && length >= needed
    }

    /// Every held slot's tree, if each link names a node or none, each colour is red or black, and the trees are finite.
    fn trees(&self) -> Option<Trees> {
        let mut held = Vec::new();
        let mut reached = vec![false; self.nodes() + 1];
        for s in (0..self.slots()).filter(|s| self.root(*s) != NOT_HELD) {
            let mut room = self.nodes();
            let tree = self.tree(self.root(s), &mut room, &mut reached)?;
            held.push((s, tree));
        }
        Some(Trees { held, reached })
    }

    /// A tree with more than N entries has a node twice, and so keys that do not ascend or no end.
    fn tree(&self, link: u32, room: &mut usize, reached: &mut [bool]) -> Option<Tree> {
        let i = link as usize;
        if i == 0 {
            return Some(Tree::Leaf);
        }
        if i > self.nodes() {
            return self.cut_off(Demand::LinksNameNodes);
        }
        if *room == 0 {
            return self.cut_off(Demand::TreesFinite);
        }
        *room -= 1;
        reached[i] = true;
        let color = self.node_word(i, 4);
        if !self.demands(Demand::ColorsKnown, color == RED || color == BLACK) {
            return None;
        }
        let left = self.tree(self.node_word(i, 2), room, reached)?;
        let right = self.tree(self.node_word(i, 3), room, reached)?;
        Some(Tree::node(color != RED, left, self.node_word(i, 0), right))
    }

    /// A link that cannot be followed counts as none where its demand is left out, so that the walk ends in any case.
    fn cut_off(&self, demand: Demand) -> Option<Tree> {
        self.demands(demand, false).then_some(Tree::Leaf)
    }

    /// "An empty tree, or a root that is black"; keys ascending; the colours' rules; sizes.
    fn versions(&self, trees: &Trees) -> bool {
        trees.held.iter().all(|(s, tree)| {
            let keys = tree.keys();
            self.demands(Demand::RootsBlack, !tree.is_red())
                && self.demands(Demand::KeysAscend, keys.is_sorted_by(|a, b| a < b))
                && self.demands(Demand::NoRedBelowRed, tree.no_red_below_red())
                && self.demands(Demand::BlackAlike, tree.black_alike().is_some())
                && self.demands(Demand::SizesTrue, self.size(*s) as usize == keys.len())
        }) && (0..self.slots())
            .filter(|s| self.root(*s) == NOT_HELD)
            .all(|s| self.demands(Demand::SizeOfNotHeld, self.size(s) == 0))
    }

    /// "Each node's count equals the child places and held slots that name it."
    fn counts(&self, trees: &Trees) -> bool {
        let mut names = vec![0u32; self.nodes() + 1];
        let mut name = |link: u32| {
            if let Some(count) = names.get_mut(link as usize) {
                *count += 1;
            }
        };
        for i in (1..=self.nodes()).filter(|i| trees.reached[*i]) {
            name(self.node_word(i, 2));
            name(self.node_word(i, 3));
        }
        trees.held.iter().for_each(|(s, _)| name(self.root(*s)));
        (1..=self.nodes()).all(|i| {
            let demand = if trees.reached[i] { Demand::CountsTrue } else { Demand::FreeCountsZero };
            self.demands(demand, self.node_word(i, 5) == names[i])
        })
    }

    /// "The free nodes are exactly the nodes not reachable from a held slot; each is listed once."
    fn free(&self, trees: &Trees) -> bool {
        let mut listed = vec![false; self.nodes() + 1];
        let mut link = self.words[2] as usize;
        while link != 0 && link <= self.nodes() && !listed[link] {
            listed[link] = true;
            link = self.node_word(link, 2) as usize;
        }
        let named = link <= self.nodes();
        // A list that comes back to a node never ends.
        let comes_back = link != 0 && named;
        self.demands(Demand::FreeLinksNameNodes, named)
            && self.demands(Demand::FreeListedOnce, !comes_back)
            && (1..=self.nodes()).all(|i| {
                if trees.reached[i] {
                    self.demands(Demand::OnlyFreeListed, !listed[i])
                } else {
                    self.demands(Demand::FreeListed, listed[i])
                }
            })
    }
}
