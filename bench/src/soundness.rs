//! The soundness test by itself, beside one plain pass that sums the same words.
use crate::answers::{self, free_nodes};
use crate::history::{self, Until};
use crate::revision::Revision;
use crate::timing::{least_of, least_times, see, time};
use library::call::{Answer, Call, truth};
use library::layout::{NOT_HELD, nodes, slot, slots};
use library::lent::{Lent, arena_len};
use std::hint::black_box;

/// N, how many nodes are in use, and V.
const PLANTED: [(usize, usize, usize); 10] = [
    (2047, 2047, 32),
    (2047, 255, 3),
    (255, 255, 3),
    (2047, 2047, 1),
    (2047, 1023, 32),
    (2047, 255, 32),
    (2047, 0, 32),
    (255, 0, 3),
    (15, 15, 3),
    (15, 0, 3),
];

/// N, V, how many versions are kept at most, and where the history ends.
const HISTORIES: [(u32, u32, usize, Until); 5] = [
    (2047, 32, 8, Until::Full),
    (2047, 32, 8, Until::Entries(255)),
    (2047, 32, 8, Until::Entries(0)),
    (255, 3, 2, Until::Full),
    (15, 3, 2, Until::Full),
];

/// How many tests a round makes of each revision before the next has its turn. In a long run the
/// processor learns the turns of the arena's links, in a short one it does so less.
#[derive(Clone, Copy)]
pub enum Run {
    Short = 4,
    Long = 64,
}

/// The same for a pass.
const PASSES_OVER_WORDS: usize = 20;

/// Arenas that no calls made: their trees are perfect and their nodes lie in the order of the keys.
pub fn planted() -> Vec<Lent> {
    PLANTED.iter().map(|(n, used, v)| Lent::new(&plant_arena(*n, *used, *v))).collect()
}

/// Arenas after random edits. Every revision answers on them as rpds does.
pub fn after_histories(revisions: &[Revision]) -> Vec<Lent> {
    let arena = |(n, v, kept, until): &(u32, u32, usize, Until)| {
        let made = || history::after(*n, *v, *kept, *until);
        revisions.iter().for_each(|revision| answers::check(revision, &mut made()));
        made().lent
    };
    HISTORIES.iter().map(arena).collect()
}

/// An arena of n nodes and v slots, each slot holding the perfect black tree of `used` nodes, a power of two less one; the rest is free.
fn plant_arena(n: usize, used: usize, v: usize) -> Vec<u32> {
    let mut ws = vec![0u32; arena_len(n as u32, v as u32)];
    ws[..3].copy_from_slice(&[n as u32, v as u32, if used < n { used as u32 + 1 } else { 0 }]);
    let root = if used > 0 { plant(&mut ws, 1, used) } else { 0 };
    if root > 0 {
        ws[6 * root + 7] = v as u32;
    }
    for i in used + 1..=n {
        ws[6 * i + 4] = if i < n { i as u32 + 1 } else { 0 };
    }
    for s in 0..v {
        ws[6 * n + 8 + 2 * s..][..2].copy_from_slice(&[root as u32, used as u32]);
    }
    ws
}

/// The nodes from `first` on, `size` of them, in the order of their keys; answers the root.
fn plant(ws: &mut [u32], first: usize, size: usize) -> usize {
    let root = first + size / 2;
    let (left, right) = if size > 1 { (plant(ws, first, size / 2), plant(ws, root + 1, size / 2)) } else { (0, 0) };
    let words = [1000 + root as u32, root as u32, left as u32, right as u32, 1, 1];
    ws[6 * root + 2..][..6].copy_from_slice(&words);
    root
}

/// The least nanoseconds of each revision's test, and of the pass.
struct Times {
    tests: Vec<f64>,
    pass: f64,
}

pub fn table(revisions: &[Revision], arenas: &mut [Lent], run: Run, passes: usize) {
    arenas.iter_mut().for_each(|lent| check(revisions, lent));
    let mut least: Vec<Times> = arenas.iter_mut().map(|lent| measure(revisions, lent, run)).collect();
    for _ in 1..passes {
        for (kept, lent) in least.iter_mut().zip(arenas.iter_mut()) {
            let again = measure(revisions, lent, run);
            kept.tests.iter_mut().zip(again.tests).for_each(|(kept, other)| *kept = kept.min(other));
            kept.pass = kept.pass.min(again.pass);
        }
    }
    let names = revisions.iter().map(|revision| if revisions.len() == 1 { "test" } else { revision.name });
    let heads: String = names.map(|name| format!(" {name} µs | {name} ns/word |")).collect();
    println!("| N | used | V | held | words |{heads} pass µs | pass ns/word | ratio |");
    println!("|---|---|---|---|---|{}---|---|---|", "---|---|".repeat(revisions.len()));
    arenas.iter().zip(&least).for_each(|(lent, times)| print(lent.words(), times));
}

/// The ratio is that of the present revision's test to the pass.
fn print(words: &[u32], times: &Times) {
    let cells = |nanos: f64| format!(" {:.2} | {:.3} |", nanos / 1000.0, nanos / words.len() as f64);
    let tests: String = times.tests.iter().copied().map(cells).collect();
    let used = nodes(words) - free_nodes(words);
    let held = (0..slots(words) as u32).filter(|s| slot(words, *s).0 != NOT_HELD).count();
    print!("| {} | {used} | {} | {held} | {} |", nodes(words), slots(words), words.len());
    let now = times.tests.last().expect("a revision is timed");
    println!("{tests}{} {:.0} |", cells(times.pass), now / times.pass);
}

/// The arena is sound with the free number that its words have, and a broken copy is unsound.
fn check(revisions: &[Revision], lent: &mut Lent) {
    let free = free_nodes(lent.words()) as u32;
    let mut broken = lent.clone();
    broken.words_mut()[13] += 1;
    for revision in revisions {
        assert_eq!(revision.call(lent, Call::Sound), truth(true), "{}: soundness", revision.name);
        assert_eq!(revision.call(lent, Call::FreeNodes), Answer::Word(free), "{}: free nodes", revision.name);
        assert_eq!(revision.call(&mut broken, Call::Sound), truth(false), "{}: a broken arena", revision.name);
    }
}

fn measure(revisions: &[Revision], lent: &mut Lent, run: Run) -> Times {
    let repeats = run as usize;
    let tests = least_times(revisions.len(), |i| {
        time(|| (0..repeats).for_each(|_| see(revisions[i].call(black_box(lent), Call::Sound))))
    });
    let words = lent.words();
    let sum = || black_box(words).iter().fold(0u32, |sum, word| sum.wrapping_add(*word));
    let pass = least_of(PASSES_OVER_WORDS, || (0..PASSES_OVER_WORDS).for_each(|_| see(sum())));
    Times { tests: tests.into_iter().map(|taken| taken / repeats as f64).collect(), pass }
}
