//! Two versions in one arena, all of whose differences are known.
use crate::arena::{Arena, Map};
use crate::difference::{self, Difference};
use crate::revision::Revision;
use library::call::END;
use library::layout::slot;
use library::lent::Lent;
use std::cmp::Ordering;

pub struct Pair {
    /// What was built.
    pub name: &'static str,
    pub lent: Lent,
    pub slots: (u32, u32),
    pub roots: (u32, u32),
    /// rpds's maps, and what they differ in.
    pub maps: (Map, Map),
    pub differences: Vec<Difference>,
}

impl Pair {
    /// Of the oldest and the newest version of the arena, which so many edits made differ.
    pub fn new(name: &'static str, arena: Arena, edits: usize) -> Pair {
        let slots = (arena.slots[0], arena.newest());
        let root = |s| slot(arena.lent.words(), s).0;
        let roots = (root(slots.0), root(slots.1));
        let maps = (arena.maps[0].clone(), arena.newest_map().clone());
        let mut differences = Vec::new();
        merge(&maps.0, &maps.1, |difference| differences.push(difference));
        assert_eq!(differences.len(), edits, "{name}: each edit makes a difference");
        Pair { name, lent: arena.lent, slots, roots, maps, differences }
    }

    /// How many steps an audit has: one for each difference, and one for END.
    pub fn steps(&self) -> usize {
        self.differences.len() + 1
    }

    /// Steps by public calls until one is refused, and that refusal; none where the revision has no
    /// difference step.
    pub fn audit(&self, revision: &Revision, mut see: impl FnMut(Difference)) -> Option<u32> {
        let (words, mut last) = (self.lent.words(), None);
        loop {
            match revision.difference.call(words, self.slots, last)? {
                Ok(difference) => {
                    last = Some(difference[1]);
                    see(difference);
                }
                Err(refusal) => return Some(refusal),
            }
        }
    }

    /// Sees that an audit gives what rpds's maps differ in, and then END.
    pub fn check(&self, revision: &Revision) {
        let mut right = self.differences.iter();
        let end = self.audit(revision, |difference| {
            assert_eq!(Some(&difference), right.next(), "{}: {}", revision.name, self.name);
        });
        let Some(end) = end else { return };
        assert_eq!((end, right.len()), (END, 0), "{}: {}", revision.name, self.name);
    }
}

/// What two maps of rpds's differ in, by their iterators beside each other.
pub fn merge(one: &Map, other: &Map, mut see: impl FnMut(Difference)) {
    let (mut ones, mut others) = (one.iter(), other.iter());
    let (mut x, mut y) = (ones.next(), others.next());
    loop {
        let order = match (x, y) {
            (None, None) => return,
            (Some(_), None) => Ordering::Less,
            (None, Some(_)) => Ordering::Greater,
            (Some(x), Some(y)) => x.0.cmp(y.0),
        };
        let (first, second) = (x.filter(|_| order.is_le()), y.filter(|_| order.is_ge()));
        if first != second {
            see(difference::between(first, second));
        }
        x = if order.is_le() { ones.next() } else { x };
        y = if order.is_ge() { others.next() } else { y };
    }
}
