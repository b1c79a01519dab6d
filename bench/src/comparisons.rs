//! compare above its soundness test, of versions that share nodes and of versions built apart.
use crate::above::{self, Questions, Unit};
use crate::arena::{Arena, Map, Plan};
use crate::revision::Revision;
use library::call::{Answer, Call};
use library::layout::slot;
use library::lent::Lent;
use std::hint::black_box;
use std::ops::Range;

const MICROSECONDS: Unit = ("µs", 1000.0);

/// One comparison: the slots, their roots, and rpds's maps.
struct Comparison {
    slots: (u32, u32),
    roots: (u32, u32),
    maps: (Map, Map),
}

impl Comparison {
    /// Of the versions at these places of the arena's list.
    fn new(arena: &Arena, (one, other): (usize, usize)) -> Comparison {
        let slots = (arena.slots[one], arena.slots[other]);
        let root = |s| slot(arena.lent.words(), s).0;
        let maps = (arena.maps[one].clone(), arena.maps[other].clone());
        Comparison { slots, roots: (root(slots.0), root(slots.1)), maps }
    }
}

impl Questions for Comparison {
    type Answer = Answer;

    fn count(&self) -> usize {
        1
    }

    fn call(&self, revision: &Revision, lent: &mut Lent, _: usize) -> Option<Answer> {
        Some(revision.call(lent, Call::Compare { s: self.slots.0, t: self.slots.1 }))
    }

    fn below(
        &self,
        revision: &Revision,
        words: &[u32],
        which: Range<usize>,
        mut see: impl FnMut(Answer),
    ) -> Option<()> {
        // SAFETY: calls made the arena and none was refused, and the roots are those of its slots.
        which.map(|_| unsafe { revision.compare(words, self.roots, &mut see) }).collect()
    }

    fn rpds(&self, which: Range<usize>, mut see: impl FnMut(Answer)) -> Option<()> {
        let (one, other) = &self.maps;
        which.for_each(|_| see(Answer::Word(black_box(one).cmp(black_box(other)) as i32 as u32)));
        Some(())
    }
}

pub fn table(revisions: &[Revision]) {
    println!("\n## Compare above its soundness test\n");
    above::heading(revisions, "versions", MICROSECONDS);
    let mut shared = Arena::new(Plan { n: 2047, v: 32, entries: 2000, versions: 2 }, 0);
    let mut apart = Arena::built_apart(2047, 32, 1000);
    print(revisions, "2,000 entries, the last value differs, nodes shared", &mut shared, (0, 1));
    print(revisions, "1,000 entries, equal, built apart", &mut apart, (0, 1));
    print(revisions, "1,000 entries, the last value differs, built apart", &mut apart, (0, 2));
}

fn print(revisions: &[Revision], what: &str, arena: &mut Arena, places: (usize, usize)) {
    let comparison = Comparison::new(arena, places);
    let rows = above::rows(&comparison, revisions, &mut arena.lent);
    above::print(what, &rows, MICROSECONDS);
}
