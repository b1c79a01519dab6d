//! Ways to damage a sound arena, and a few changes that leave it sound.
use crate::repair;
use common::random::Random;
use library::layout::{self, HEAD, NOT_HELD, SPARE, node_at, slot_at};

/// A way to change the words of a sound arena, and its name.
pub type Kind = (&'static str, fn(&mut Vec<u32>, &mut Random));

const KEY: usize = 0;
const LEFT: usize = 2;
const RIGHT: usize = 3;
const COLOR: usize = 4;
const COUNT: usize = 5;

pub const KINDS: &[Kind] = &[
    ("a bit flipped", |words, random| {
        let at = random.below(words.len());
        words[at] ^= 1 << random.below(32);
    }),
    ("two words exchanged", |words, random| {
        let (one, other) = (random.below(words.len()), random.below(words.len()));
        words.swap(one, other);
    }),
    ("two words of one kind exchanged", |words, random| {
        let which = random.below(6);
        let (one, other) = (any_node(words, random), any_node(words, random));
        words.swap(node_at(one as usize) + which, node_at(other as usize) + which);
    }),
    ("a word made small or a limit", |words, random| {
        let at = random.below(words.len());
        words[at] = near_limits(words, random);
    }),
    ("a tail cut off", |words, random| {
        let left = if random.one_in(2) { words.len() - 1 - random.below(7) } else { random.below(words.len()) };
        words.truncate(left);
    }),
    ("words put behind", |words, random| {
        (0..1 + random.below(7)).for_each(|_| words.push(random.word()));
    }),
    ("N or V changed", |words, random| {
        let which = random.below(2);
        words[which] = [words[which].wrapping_add(1), words[which].wrapping_sub(1), random.word()][random.below(3)];
    }),
    ("N and V changed for the same length", |words, random| {
        let up = random.one_in(2);
        words[0] = if up { words[0].wrapping_add(1) } else { words[0].wrapping_sub(1) };
        words[1] = if up { words[1].wrapping_sub(3) } else { words[1].wrapping_add(3) };
    }),
    ("N and V that only agree with the length modulo 2^32", |words, random| {
        words[0] = words[0].wrapping_add(1 << 31);
        if random.one_in(2) {
            words[1] = words[1].wrapping_add(1 << 31);
        }
    }),
    ("a node's words copied to another", |words, random| {
        let (one, other) = (node_at(any_node(words, random) as usize), node_at(any_node(words, random) as usize));
        words.copy_within(one..one + 6, other);
    }),
    ("a node doubled: a link goes to a copy of its child", |words, random| double_node(words, random)),
    ("a link goes to any node", |words, random| {
        let (i, to) = (used_node(words, random), any_node(words, random));
        *word(words, i, LEFT + random.below(2)) = to;
    }),
    ("a link goes to a node in use", |words, random| {
        let (i, to) = (used_node(words, random), used_node(words, random));
        *word(words, i, LEFT + random.below(2)) = to;
    }),
    ("a node is its own child", |words, random| {
        let i = used_node(words, random);
        *word(words, i, LEFT + random.below(2)) = i;
    }),
    ("a link goes back to a root", |words, random| {
        let root = words[any_slot(words, random)];
        let i = used_node(words, random);
        *word(words, i, LEFT + random.below(2)) = root;
    }),
    ("a link names no node", |words, random| {
        let i = used_node(words, random);
        let beyond = [words[0] + 1, words[0] + 2, NOT_HELD, random.word()][random.below(4)];
        *word(words, i, LEFT + random.below(2)) = beyond;
    }),
    ("a missing child names no node", |words, random| {
        let i = used_node(words, random);
        let which = LEFT + random.below(2);
        if *word(words, i, which) == 0 {
            *word(words, i, which) = words[0] + 1;
        }
    }),
    ("a child is cut off", |words, random| {
        let i = used_node(words, random);
        *word(words, i, LEFT + random.below(2)) = 0;
    }),
    ("two children change places", |words, random| {
        let at = node_at(used_node(words, random) as usize);
        words.swap(at + LEFT, at + RIGHT);
    }),
    ("a node is hung where a child is missing", |words, random| hang_node(words, random)),
    ("a colour changed", |words, random| {
        let i = used_node(words, random);
        *word(words, i, COLOR) ^= 1;
    }),
    ("a colour that is none", |words, random| {
        let i = used_node(words, random);
        *word(words, i, COLOR) = [2, 3, u32::MAX, random.word()][random.below(4)];
    }),
    ("a key one higher or lower", |words, random| {
        let i = used_node(words, random);
        let key = word(words, i, KEY);
        *key = if random.one_in(2) { key.wrapping_add(1) } else { key.wrapping_sub(1) };
    }),
    ("a key that another node has", |words, random| {
        let (i, other) = (used_node(words, random), used_node(words, random));
        let key = *word(words, other, KEY);
        *word(words, i, KEY) = key;
    }),
    ("any key", |words, random| {
        let i = used_node(words, random);
        *word(words, i, KEY) = random.word();
    }),
    ("a count one higher or lower", |words, random| {
        let i = used_node(words, random);
        let count = word(words, i, COUNT);
        *count = if random.one_in(2) { count.wrapping_add(1) } else { count.wrapping_sub(1) };
    }),
    ("a free node's count is not 0", |words, random| {
        let free = first_free(words);
        if free != 0 {
            *word(words, free, COUNT) = 1 + random.below(2) as u32;
        }
    }),
    ("the free list starts elsewhere", |words, random| words[HEAD] = any_link(words, random)),
    ("the free list leaves a node out", |words, random| {
        let free = free_nodes(words);
        match (free.len(), random.below(free.len().max(1))) {
            (0, _) => {}
            (_, 0) => words[HEAD] = layout::node(words, free[0]).left,
            (_, place) => *word(words, free[place - 1], LEFT) = layout::node(words, free[place]).left,
        }
    }),
    ("the free list goes round", |words, random| {
        let free = free_nodes(words);
        if let Some(last) = free.last() {
            *word(words, *last, LEFT) = free[random.below(free.len())];
        }
    }),
    ("the free list goes on into the trees", |words, random| {
        let free = free_nodes(words);
        let used = used_node(words, random);
        match free.last() {
            Some(last) => *word(words, *last, LEFT) = used,
            None => words[HEAD] = used,
        }
    }),
    ("the free list ends beyond the nodes", |words, random| {
        if let Some(last) = free_nodes(words).last() {
            *word(words, *last, LEFT) = words[0] + 1 + random.below(3) as u32;
        }
    }),
    ("a size one higher or lower", |words, random| {
        let at = any_slot(words, random) + 1;
        words[at] = if random.one_in(2) { words[at].wrapping_add(1) } else { words[at].wrapping_sub(1) };
    }),
    ("a slot given another root", |words, random| {
        let at = any_slot(words, random);
        words[at] = [any_link(words, random), used_node(words, random), 0, words[0] + 1][random.below(4)];
    }),
    ("a slot not held any more, or held empty", |words, random| {
        let at = any_slot(words, random);
        words[at] = [NOT_HELD, 0][random.below(2)];
    }),
    ("a slot copied to another", |words, random| {
        let (one, other) = (any_slot(words, random), any_slot(words, random));
        words.copy_within(one..one + 2, other);
    }),
    ("sound: spare words, values and free nodes' words changed", |words, random| {
        words[SPARE].iter_mut().for_each(|word| *word = random.word());
        let i = used_node(words, random);
        *word(words, i, 1) = random.word();
        let free = first_free(words);
        if free != 0 {
            [KEY, 1, RIGHT, COLOR].into_iter().for_each(|which| *word(words, free, which) = random.word());
        }
    }),
    ("sound: two nodes change their numbers", |words, random| {
        let (one, other) = (any_node(words, random), any_node(words, random));
        renumber(words, one, other);
    }),
    ("sound: the free list in another order", |words, random| repair::free_list(words, random)),
];

/// Whether this kind, by its name, leaves every sound arena sound.
pub fn keeps_sound(kind: &str) -> bool {
    kind.starts_with("sound: ")
}

fn word(words: &mut [u32], i: u32, which: usize) -> &mut u32 {
    &mut words[node_at(i as usize) + which]
}

fn any_node(words: &[u32], random: &mut Random) -> u32 {
    1 + random.below(layout::nodes(words)) as u32
}

fn any_link(words: &[u32], random: &mut Random) -> u32 {
    random.below(layout::nodes(words) + 2) as u32
}

fn any_slot(words: &[u32], random: &mut Random) -> usize {
    slot_at(words, random.below(layout::slots(words)))
}

/// A node with a count, if one comes up soon.
fn used_node(words: &[u32], random: &mut Random) -> u32 {
    let mut picks = (0..40).map(|_| any_node(words, random));
    let first = picks.next().expect("40 picks");
    if layout::node(words, first).count > 0 {
        return first;
    }
    picks.find(|i| layout::node(words, *i).count > 0).unwrap_or(first)
}

fn near_limits(words: &[u32], random: &mut Random) -> u32 {
    let (n, v) = (words[0], words[1]);
    let numbers = [0, 1, 2, 3, n, n + 1, n.wrapping_sub(1), v, v + 1, 2047, 2048, 32, 33, NOT_HELD, NOT_HELD - 1];
    numbers[random.below(numbers.len())]
}

/// The free list, as far as it can be followed.
fn free_nodes(words: &[u32]) -> Vec<u32> {
    let mut free = Vec::new();
    let mut link = words[HEAD];
    while is_node(words, link) && free.len() < layout::nodes(words) {
        free.push(link);
        link = layout::node(words, link).left;
    }
    free
}

fn is_node(words: &[u32], link: u32) -> bool {
    (1..=layout::nodes(words)).contains(&(link as usize))
}

fn first_free(words: &[u32]) -> u32 {
    if is_node(words, words[HEAD]) { words[HEAD] } else { 0 }
}

/// A free node becomes the copy of a child, in that child's place.
fn double_node(words: &mut [u32], random: &mut Random) {
    let i = used_node(words, random);
    let which = LEFT + random.below(2);
    let (child, taken) = (*word(words, i, which), first_free(words));
    if is_node(words, child) && taken != 0 {
        let (from, to) = (node_at(child as usize), node_at(taken as usize));
        words.copy_within(from..from + 6, to);
        *word(words, i, which) = taken;
    }
}

/// A free node, its key in order, becomes a red or black child where one is missing.
fn hang_node(words: &mut [u32], random: &mut Random) {
    let i = used_node(words, random);
    let side = random.below(2);
    let taken = first_free(words);
    if taken != 0 && *word(words, i, LEFT + side) == 0 {
        let key = *word(words, i, KEY);
        let key = if side == 0 { key.wrapping_sub(1) } else { key.wrapping_add(1) };
        words[HEAD] = layout::node(words, taken).left;
        let at = node_at(taken as usize);
        words[at..at + 6].copy_from_slice(&[key, 0, 0, 0, u32::from(random.one_in(3)), 1]);
        *word(words, i, LEFT + side) = taken;
    }
}

/// Node `one` becomes node `other` and the other way round, wherever they are named.
fn renumber(words: &mut [u32], one: u32, other: u32) {
    let renamed = |link: u32| match link {
        link if link == one => other,
        link if link == other => one,
        link => link,
    };
    for i in 1..=layout::nodes(words) as u32 {
        let n = layout::node(words, i);
        *word(words, i, LEFT) = renamed(n.left);
        if n.count > 0 {
            *word(words, i, RIGHT) = renamed(n.right);
        }
    }
    (0..layout::slots(words)).for_each(|s| words[slot_at(words, s)] = renamed(words[slot_at(words, s)]));
    words[HEAD] = renamed(words[HEAD]);
    for which in 0..6 {
        words.swap(node_at(one as usize) + which, node_at(other as usize) + which);
    }
}
