//! Which of the arena's nodes stands for which of rpds's: by number and by address, as long as a held version has them.
use library::layout;
use library::outcome::{Outcome, holds, same};
use seen::{Seen, SeenNode};
use std::collections::HashMap;
use steps::tree::Color;

#[derive(Clone, Copy)]
struct Twin {
    number: u32,
    /// The held versions that have the node.
    holders: u32,
}

#[derive(Clone, Default)]
pub struct Twins {
    by_address: HashMap<usize, Twin>,
    by_number: HashMap<u32, usize>,
}

/// What a new version was found to be made of.
#[derive(Default)]
pub struct Entered {
    /// The addresses of all its nodes.
    pub nodes: Vec<usize>,
    /// How many of them no held version had.
    pub fresh: usize,
}

impl Twins {
    pub fn len(&self) -> usize {
        self.by_address.len()
    }

    /// The new version node by node: entry, colour and shape have to be rpds's. Where rpds shares a node with a held version
    /// the arena has to share that node's twin; where rpds has made a node, the arena's has to have been free.
    pub fn enter(&mut self, seen: &Seen, words: &[u32], root: u32) -> Outcome<Entered> {
        let mut entered = Entered::default();
        self.enter_below(&seen.root, words, root, &mut entered)?;
        Ok(entered)
    }

    fn enter_below(
        &mut self,
        seen: &Option<Box<SeenNode>>,
        words: &[u32],
        link: u32,
        entered: &mut Entered,
    ) -> Outcome {
        let Some(seen) = seen else { return same("a link where rpds has no child", 0, link) };
        holds("a link where rpds has a child names a node", (1..=layout::nodes(words)).contains(&(link as usize)))?;
        let node = layout::node(words, link);
        same("key and value of a node", (seen.entry.key, seen.entry.value), (node.key, node.value))?;
        same("colour of a node", u32::from(seen.color == Color::Black), node.color)?;
        self.pair(seen.address, link, entered)?;
        self.enter_below(&seen.left, words, node.left, entered)?;
        self.enter_below(&seen.right, words, node.right, entered)
    }

    fn pair(&mut self, address: usize, number: u32, entered: &mut Entered) -> Outcome {
        entered.nodes.push(address);
        if let Some(twin) = self.by_address.get_mut(&address) {
            twin.holders += 1;
            return same("the number of a node that rpds shares", twin.number, number);
        }
        entered.fresh += 1;
        self.by_address.insert(address, Twin { number, holders: 1 });
        let taken = self.by_number.insert(number, address);
        holds("a node that rpds has made stands in a node that was free", taken.is_none())
    }

    /// One more version that has these nodes.
    pub fn hold(&mut self, nodes: &[usize]) {
        for address in nodes {
            self.by_address.get_mut(address).expect("a held node has a twin").holders += 1;
        }
    }

    /// One version less that has these nodes.
    pub fn release(&mut self, nodes: &[usize]) {
        for address in nodes {
            let twin = self.by_address.get_mut(address).expect("a held node has a twin");
            twin.holders -= 1;
            if twin.holders == 0 {
                self.by_number.remove(&twin.number);
                self.by_address.remove(address);
            }
        }
    }
}
