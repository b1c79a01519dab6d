//! Walk steps above their soundness test, at both ends, over unbounded and bounded ranges.
use crate::above::{self, Questions, Unit};
use crate::arena::{Arena, Map, Plan};
use crate::by_size::SIZES;
use crate::ranges::Ranges;
use crate::revision::Revision;
use common::random::Random;
use library::call::{self, Answer, Call, END, End, UNBOUNDED, Walk};
use library::layout::slot;
use library::lent::Lent;
use std::hint::black_box;
use std::ops::Bound::{self, Excluded, Included, Unbounded};
use std::ops::Range;

const NANOSECONDS: Unit = ("ns", 1.0);

/// More steps than the processor can learn the turns of.
const MANY: usize = 8192;

/// Steps at one end of walks over a version, as a walk that goes on makes them: the last key given
/// is one that is there.
struct Steps<'a> {
    map: &'a Map,
    root: u32,
    end: End,
    walks: Vec<Walk>,
    /// The walks as the functions below the test take them, and as rpds does.
    ranges: Ranges,
    bounds: Vec<(Bound<u32>, Bound<u32>)>,
}

impl Steps<'_> {
    /// Bounded walks go from a quarter of the listing to three quarters, and stay inside.
    fn new(arena: &Arena, end: End, bounded: bool) -> Steps<'_> {
        let (keys, root) = (&arena.keys, slot(arena.lent.words(), arena.newest()).0);
        let (from, to) = if bounded { (keys.len() / 4, keys.len() * 3 / 4) } else { (0, keys.len() - 1) };
        let whole = if bounded {
            let start = call::Bound { kind: 1, key: keys[from] };
            Walk::new(arena.newest(), start, call::Bound { kind: 2, key: keys[to] })
        } else {
            Walk::new(arena.newest(), UNBOUNDED, UNBOUNDED)
        };
        let mut random = Random::new(1);
        let walks: Vec<Walk> = (0..MANY).map(|_| whole.stepped(end, keys[from + random.below(to - from)])).collect();
        let ranges = Ranges::of(&walks);
        let bounds = walks.iter().map(bounds).collect();
        Steps { map: arena.newest_map(), root, end, walks, ranges, bounds }
    }
}

/// The range that is left of a walk.
fn bounds(walk: &Walk) -> (Bound<u32>, Bound<u32>) {
    let left = |(given, key): (u32, u32), bound: call::Bound| match (given, bound.kind) {
        (0, 1) => Included(bound.key),
        (0, 2) => Excluded(bound.key),
        (0, _) => Unbounded,
        _ => Excluded(key),
    };
    (left(walk.front, walk.start), left(walk.back, walk.end))
}

impl Questions for Steps<'_> {
    type Answer = Answer;

    fn count(&self) -> usize {
        self.walks.len()
    }

    fn call(&self, revision: &Revision, lent: &mut Lent, question: usize) -> Option<Answer> {
        Some(revision.call(lent, Call::Step { end: self.end, walk: self.walks[question] }))
    }

    fn below(&self, revision: &Revision, words: &[u32], which: Range<usize>, see: impl FnMut(Answer)) -> Option<()> {
        let ranges = &self.ranges.with(revision.options)[which];
        // SAFETY: calls made the arena and none was refused, and the root is its newest slot's.
        unsafe { revision.step(words, self.root, (self.end, ranges), see) }
    }

    fn rpds(&self, which: Range<usize>, mut see: impl FnMut(Answer)) -> Option<()> {
        let map = black_box(self.map);
        for bounds in &self.bounds[which] {
            let mut range = map.range::<u32, _>(*bounds);
            let entry = if self.end == End::Front { range.next() } else { range.next_back() };
            see(entry.map_or(Answer::Refused(END), |(key, value)| Answer::Entry(*key, *value)));
        }
        Some(())
    }
}

pub fn table(revisions: &[Revision]) {
    println!("\n## A walk step above its soundness test\n");
    above::heading(revisions, "step", NANOSECONDS);
    for entries in SIZES {
        let arena = Arena::new(Plan { n: 2047, v: 32, entries, versions: 1 }, 0);
        for (end, bounded) in [(End::Front, false), (End::Back, false), (End::Front, true), (End::Back, true)] {
            let steps = Steps::new(&arena, end, bounded);
            let rows = above::rows(&steps, revisions, &mut arena.lent.clone());
            let (end, range) = (format!("{end:?}").to_lowercase(), if bounded { "bounded" } else { "unbounded" });
            above::print(&format!("{entries} entries, {end}, {range}"), &rows, NANOSECONDS);
        }
    }
}
