//! What document 01 expects of each call: a plain account of slots and nodes over rpds's own maps, with no code of the library's.
use crate::merge;
use crate::twins::Twins;
use library::call::{ABSENT, BAD_RANGE, BAD_SHAPE, END, NO_ROOM, NO_SLOT, NO_VERSION};
use library::call::{Answer, Bound, Call, Differences, End, Walk, truth};
use seen::Map;
use std::cmp::Ordering;
use std::ops;
use std::rc::Rc;

/// (0028,1053) Rescale Slope.
const RESCALE_SLOPE: u32 = 0x0028 * 65_536 + 0x1053;

/// A version that a slot holds.
#[derive(Clone)]
pub struct Held {
    pub map: Map,
    /// The addresses of the map's nodes.
    pub nodes: Rc<Vec<usize>>,
}

#[derive(Clone)]
pub struct Model {
    pub len: usize,
    pub n: u32,
    pub slots: Vec<Option<Held>>,
    /// The nodes that held versions have, by rpds's addresses and by the arena's numbers.
    pub twins: Twins,
}

impl Model {
    /// What a formatted arena is.
    pub fn formatted(n: u32, v: u32) -> Model {
        Model { len: arena_len(n, v), n, slots: vec![None; v as usize], twins: Twins::default() }
    }

    pub fn v(&self) -> u32 {
        self.slots.len() as u32
    }

    /// "Demand 3 counts reachable nodes": those that are not are free.
    pub fn free(&self) -> u32 {
        self.n - self.twins.len() as u32
    }

    pub fn held(&self) -> Vec<u32> {
        (0..self.v()).filter(|s| self.slots[*s as usize].is_some()).collect()
    }

    pub fn map(&self, s: u32) -> Option<&Map> {
        self.slots.get(s as usize)?.as_ref().map(|held| &held.map)
    }

    /// The call's answer on the arena as it stands, which is sound.
    pub fn expected(&self, call: Call) -> Answer {
        self.answer(call).unwrap_or_else(Answer::Refused)
    }

    fn answer(&self, call: Call) -> Result<Answer, u32> {
        match call {
            Call::Format { n, v } => self.format(n, v),
            Call::New => self.handed_out(),
            Call::Hold { s } => self.named(s).and_then(|_| self.handed_out()),
            Call::Release { s } => self.named(s).map(|_| Answer::Done),
            Call::Size { s } => self.named(s).map(|map| Answer::Word(map.size() as u32)),
            Call::FreeNodes => Ok(Answer::Word(self.free())),
            Call::Get { s, key } => self.named(s)?.get(&key).map(|value| Answer::Word(*value)).ok_or(ABSENT),
            Call::First { s } => self.named(s)?.first().map(entry).ok_or(ABSENT),
            Call::Last { s } => self.named(s)?.last().map(entry).ok_or(ABSENT),
            Call::Insert { s, .. } => self.edit(s, |map| h(map.size()) + 1),
            Call::Remove { s, key } => {
                self.edit(s, |map| if map.contains_key(&key) { 6 * h(map.size()) + 2 } else { 0 })
            }
            Call::Compare { s, t } => Ok(Answer::Word(sign(self.named(s)?.cmp(self.named(t)?)))),
            Call::Equal { s, t } => Ok(truth(self.named(s)? == self.named(t)?)),
            Call::Step { end, walk } => step(self.named(walk.slot)?, end, &walk),
            Call::RescaleMark { s } => Ok(truth(self.named(s)?.contains_key(&RESCALE_SLOPE))),
            Call::Sound => Ok(truth(true)),
            Call::Difference { at } => self.difference(&at),
        }
    }

    fn format(&self, n: u32, v: u32) -> Result<Answer, u32> {
        let fits = (1..=2047).contains(&n) && (1..=32).contains(&v) && self.len == arena_len(n, v);
        if fits { Ok(Answer::Done) } else { Err(BAD_SHAPE) }
    }

    fn named(&self, s: u32) -> Result<&Map, u32> {
        self.map(s).ok_or(NO_VERSION)
    }

    /// "A call that hands out a slot gives the lowest one not held."
    fn handed_out(&self) -> Result<Answer, u32> {
        let lowest = self.slots.iter().position(|slot| slot.is_none());
        lowest.map(|s| Answer::Word(s as u32)).ok_or(NO_SLOT)
    }

    fn edit(&self, s: u32, reserve: impl Fn(&Map) -> usize) -> Result<Answer, u32> {
        let map = self.named(s)?;
        let slot = self.handed_out()?;
        if (self.free() as usize) < reserve(map) { Err(NO_ROOM) } else { Ok(slot) }
    }

    fn difference(&self, at: &Differences) -> Result<Answer, u32> {
        let (first, second) = (self.named(at.first)?, self.named(at.second)?);
        merge::next(first, second, at).map(Answer::Difference).ok_or(END)
    }
}

/// "For N nodes and V version slots it has exactly 8 + 2V + 6N words."
fn arena_len(n: u32, v: u32) -> usize {
    8 + 2 * v as usize + 6 * n as usize
}

/// "H(0) = 0 and otherwise H(n) = 2 × floor(log2(n+1))."
pub fn h(n: usize) -> usize {
    if n == 0 { 0 } else { 2 * (n + 1).ilog2() as usize }
}

fn entry((key, value): (&u32, &u32)) -> Answer {
    Answer::Entry(*key, *value)
}

fn sign(ordering: Ordering) -> u32 {
    ordering as i32 as u32
}

/// The least or the greatest entry in range, above the last key at the front and below that at the back.
fn step(map: &Map, end: End, walk: &Walk) -> Result<Answer, u32> {
    let bounds = bounds(walk);
    if bad_range(bounds) {
        return Err(BAD_RANGE);
    }
    let left = |key: &u32| (walk.front.0 == 0 || *key > walk.front.1) && (walk.back.0 == 0 || *key < walk.back.1);
    let mut range = map.range::<u32, _>(bounds);
    let found = match end {
        End::Front => range.find(|(key, _)| left(key)),
        End::Back => range.rfind(|(key, _)| left(key)),
    };
    found.map(entry).ok_or(END)
}

pub type Bounds = (ops::Bound<u32>, ops::Bound<u32>);

pub fn bounds(walk: &Walk) -> Bounds {
    let of_rust = |bound: Bound| match bound.kind {
        1 => ops::Bound::Included(bound.key),
        2 => ops::Bound::Excluded(bound.key),
        _ => ops::Bound::Unbounded,
    };
    (of_rust(walk.start), of_rust(walk.end))
}

/// "A walk's start and end are equal and both excluded, or start is above end (both ends given)."
pub fn bad_range(bounds: Bounds) -> bool {
    use ops::Bound::{Excluded, Included};
    match bounds {
        (Excluded(start), Excluded(end)) => start >= end,
        (Included(start) | Excluded(start), Included(end) | Excluded(end)) => start > end,
        _ => false,
    }
}
