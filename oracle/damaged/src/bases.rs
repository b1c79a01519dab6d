//! Sound arenas to be damaged: some made by the library's calls, some planted as no call would make them.
use crate::repair;
use common::keys::Keys;
use common::random::Random;
use library::call::{Answer, Call, truth};
use library::layout::{HEAD, NOT_HELD, node_at, slot_at};
use library::lent::{Lent, arena_len};
use library::{Library, Subject};

/// A base has to be sound by the checker and by the library, so that what is wrong later is the damage.
pub fn assert_sound(words: &[u32]) {
    assert!(checker::sound(words), "the checker calls a base unsound: {words:?}");
    let answer = Library.call(&mut Lent::new(words), Call::Sound);
    assert!(answer == truth(true), "the library calls a base unsound: {words:?}");
}

/// Whether N and V are what the length says, so that the words can be read by the layout.
pub fn whole(words: &[u32]) -> bool {
    matches!(words, [n, v, ..] if (1..=2047).contains(n) && (1..=32).contains(v) && words.len() == arena_len(*n, *v))
}

/// An arena after a short history of calls.
pub fn by_calls(n: u32, v: u32, calls: usize, random: &mut Random) -> Vec<u32> {
    let mut lent = Lent::arena(n, v, random.word());
    Library.call(&mut lent, Call::Format { n, v });
    Library.call(&mut lent, Call::New);
    let keys = Keys::ALL[random.below(Keys::ALL.len())];
    let (mut newest, mut held) = (0, vec![0]);
    for number in 0..calls as u32 {
        let s = if random.one_in(4) { held[random.below(held.len())] } else { newest };
        let (key, value) = (keys.pick(number, n as usize, random), random.word());
        let call = match random.below(8) {
            0 => Call::Hold { s },
            1 => Call::Remove { s, key },
            _ => Call::Insert { s, key, value },
        };
        match Library.call(&mut lent, call) {
            Answer::Word(slot) => {
                newest = slot;
                held.push(slot);
            }
            _ => release_one(&mut lent, &mut held, newest, random),
        }
        if random.one_in(3) {
            release_one(&mut lent, &mut held, newest, random);
        }
    }
    lent.words().to_vec()
}

/// Gives up a held slot that is not the newest, if there is one.
fn release_one(lent: &mut Lent, held: &mut Vec<u32>, newest: u32, random: &mut Random) {
    let place = random.below(held.len());
    if held[place] != newest {
        Library.call(lent, Call::Release { s: held.swap_remove(place) });
    }
}

/// Red-black trees of any shape on nodes of any numbers, their black nodes named by other slots too, the free list in any order.
/// N and V may be beyond their limits.
pub fn planted(n: u32, v: u32, random: &mut Random) -> Vec<u32> {
    let mut words: Vec<u32> = (0..arena_len(n, v)).map(|_| random.word()).collect();
    words[..HEAD].copy_from_slice(&[n, v]);
    let mut free: Vec<u32> = (1..=n).collect();
    shuffle(&mut free, random);
    let mut planting = Planting { words: &mut words, free, spare: 0, key: 0, blacks: vec![0], random };
    planting.trees();
    let blacks = planting.blacks;
    for s in 0..v as usize {
        // The greatest trees come last.
        let last = blacks.len() - 1;
        let root = [NOT_HELD, blacks[last], blacks[random.below(last + 1)]][random.below(3)];
        let at = slot_at(&words, s);
        words[at] = root;
    }
    repair::all(&mut words, random);
    words
}

struct Planting<'a> {
    words: &'a mut [u32],
    free: Vec<u32>,
    /// How many nodes the tree can still have beyond its black ones.
    spare: usize,
    key: u32,
    /// Roots that a slot can have: none, and every black node.
    blacks: Vec<u32>,
    random: &'a mut Random,
}

impl Planting<'_> {
    fn trees(&mut self) {
        for _ in 0..1 + self.random.below(3) {
            self.key = self.random.word() >> (8 + self.random.below(8));
            let most = (self.free.len() + 1).ilog2() as usize;
            let levels = most - self.random.below(3).min(most);
            self.spare = self.free.len() - (2usize.pow(levels as u32) - 1);
            self.black(levels);
        }
    }

    /// A black node with so many black levels, its own counted.
    fn black(&mut self, levels: usize) -> u32 {
        if levels == 0 {
            return 0;
        }
        let root = self.node(1, |planting| planting.either(levels - 1));
        self.blacks.push(root);
        root
    }

    /// A black tree, or a red node above two of them, which takes as many nodes more as the black levels could have.
    fn either(&mut self, levels: usize) -> u32 {
        let more = 2usize.pow(levels as u32);
        if more > self.spare || self.random.one_in(2) {
            return self.black(levels);
        }
        self.spare -= more;
        self.node(0, |planting| planting.black(levels))
    }

    fn node(&mut self, color: u32, child: impl Fn(&mut Self) -> u32) -> u32 {
        let i = self.free.pop().expect("as many nodes as the levels need");
        let left = child(self);
        self.key += 1 + self.random.word() % (1 << self.random.below(16));
        let key = self.key;
        let right = child(self);
        let value = self.random.word();
        let at = node_at(i as usize);
        self.words[at..at + 5].copy_from_slice(&[key, value, left, right, color]);
        i
    }
}

pub fn shuffle(list: &mut [u32], random: &mut Random) {
    for i in (1..list.len()).rev() {
        list.swap(i, random.below(i + 1));
    }
}
