//! Words that are lent to the calls, with words on both sides that no call may touch.

use std::sync::atomic::{AtomicUsize, Ordering};

/// The guarding words on each side.
static GUARD: AtomicUsize = AtomicUsize::new(32);

const PAINT: u32 = 0x0ddb_a115;

#[derive(Clone)]
pub struct Lent {
    all: Vec<u32>,
    guard: usize,
}

/// From here on words are lent without guards: for a memory checker, which sees for itself what is touched beside them.
pub fn without_guards() {
    GUARD.store(0, Ordering::Relaxed);
}

impl Lent {
    pub fn new(words: &[u32]) -> Lent {
        let guard = GUARD.load(Ordering::Relaxed);
        let paint = vec![PAINT; guard];
        Lent { all: [&paint, words, &paint].concat(), guard }
    }

    /// The words of an arena for n nodes and v slots, each of them `fill`.
    pub fn arena(n: u32, v: u32, fill: u32) -> Lent {
        Lent::new(&vec![fill; arena_len(n, v)])
    }

    fn end(&self) -> usize {
        self.all.len() - self.guard
    }

    pub fn words(&self) -> &[u32] {
        &self.all[self.guard..self.end()]
    }

    pub fn words_mut(&mut self) -> &mut [u32] {
        let end = self.end();
        &mut self.all[self.guard..end]
    }

    /// The first word behind the lent ones, for a fault to be put there.
    pub fn beyond(&mut self) -> &mut u32 {
        let end = self.end();
        &mut self.all[end]
    }

    pub fn guards_whole(&self) -> bool {
        let sides = self.all[..self.guard].iter().chain(&self.all[self.end()..]);
        sides.copied().all(|word| word == PAINT)
    }
}

/// "It has exactly 8 + 2V + 6N words."
pub fn arena_len(n: u32, v: u32) -> usize {
    8 + 2 * v as usize + 6 * n as usize
}
