//! Puts counts, sizes and the free list right again after the trees were damaged, so that the damage itself is all that is wrong.
//! The words have room for the N and V that they record. What the checker has too is written again here on purpose: a mistake that both
//! had would put wrong what the checker then calls right.
use crate::bases::shuffle;
use common::random::Random;
use library::layout::{self, HEAD, NOT_HELD, node_at, slot_at};

pub fn all(words: &mut [u32], random: &mut Random) {
    sizes(words);
    counts(words);
    free_list(words, random);
}

/// The slots' sizes, by the nodes that the links give, as far as they can be followed.
pub fn sizes(words: &mut [u32]) {
    for s in 0..layout::slots(words) {
        let at = slot_at(words, s);
        let mut room = layout::nodes(words) as u32;
        let size = if words[at] == NOT_HELD { 0 } else { size(words, words[at], &mut room) };
        words[at + 1] = size;
    }
}

fn size(words: &[u32], link: u32, room: &mut u32) -> u32 {
    if link == 0 || link as usize > layout::nodes(words) || *room == 0 {
        return 0;
    }
    *room -= 1;
    let n = layout::node(words, link);
    1 + size(words, n.left, room) + size(words, n.right, room)
}

/// The counts, by the slots and by the links of the nodes that they reach; free nodes have none.
pub fn counts(words: &mut [u32]) {
    let n = layout::nodes(words);
    let reached = reached(words);
    let mut counts = vec![0; n + 1];
    let mut name = |link: u32| {
        if let Some(count) = counts.get_mut(link as usize) {
            *count += 1;
        }
    };
    for i in (1..=n).filter(|i| reached[*i]) {
        let node = layout::node(words, i as u32);
        name(node.left);
        name(node.right);
    }
    (0..layout::slots(words)).for_each(|s| name(words[slot_at(words, s)]));
    (1..=n).for_each(|i| words[node_at(i) + 5] = counts[i]);
}

/// The free list: the nodes that no slot reaches, in any order.
pub fn free_list(words: &mut [u32], random: &mut Random) {
    let reached = reached(words);
    let mut free: Vec<u32> = (1..reached.len() as u32).filter(|i| !reached[*i as usize]).collect();
    shuffle(&mut free, random);
    let mut next = 0;
    for i in free {
        words[node_at(i as usize) + 2] = next;
        next = i;
    }
    words[HEAD] = next;
}

/// Which nodes held slots reach, by their numbers.
pub fn reached(words: &[u32]) -> Vec<bool> {
    let mut seen = vec![false; layout::nodes(words) + 1];
    let mut waiting: Vec<u32> = (0..layout::slots(words)).map(|s| words[slot_at(words, s)]).collect();
    while let Some(link) = waiting.pop() {
        if link != 0 && (link as usize) < seen.len() && !seen[link as usize] {
            seen[link as usize] = true;
            let node = layout::node(words, link);
            waiting.extend([node.left, node.right]);
        }
    }
    seen
}
