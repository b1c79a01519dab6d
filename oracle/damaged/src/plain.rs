//! What document 01 expects of each call on a sound arena, from the listings of its slots.
use library::call::{ABSENT, BAD_RANGE, BAD_SHAPE, END, NO_ROOM, NO_SLOT, NO_VERSION};
use library::call::{Answer, Bound, Call, Difference, Differences, End, Walk, truth};
use library::call::{IN_BOTH, ONLY_FIRST, ONLY_SECOND};
use library::layout::{self, NOT_HELD};
use library::lent::arena_len;
use std::collections::BTreeSet;

const RESCALE_SLOPE: u32 = 2_625_619;

pub type Listing = Vec<(u32, u32)>;

/// The listing of each slot, none where it is not held.
pub fn listings(words: &[u32]) -> Vec<Option<Listing>> {
    let of = |s| match layout::slot(words, s).0 {
        NOT_HELD => None,
        root => Some(layout::listing(words, root)),
    };
    (0..layout::slots(words) as u32).map(of).collect()
}

/// How many nodes no held slot reaches; of a sound arena. Counted here, so that the checker and the model do not share a mistake.
pub fn free_number(words: &[u32]) -> usize {
    let mut reached = BTreeSet::new();
    for s in 0..layout::slots(words) as u32 {
        let root = layout::slot(words, s).0;
        if root != NOT_HELD {
            reach(words, root, &mut reached);
        }
    }
    layout::nodes(words) - reached.len()
}

fn reach(words: &[u32], link: u32, reached: &mut BTreeSet<u32>) {
    if link != 0 && reached.insert(link) {
        let node = layout::node(words, link);
        reach(words, node.left, reached);
        reach(words, node.right, reached);
    }
}

pub struct Plain {
    free: usize,
    slots: Vec<Option<Listing>>,
}

impl Plain {
    pub fn of(words: &[u32]) -> Plain {
        Plain { free: free_number(words), slots: listings(words) }
    }

    pub fn expected(&self, call: Call) -> Answer {
        self.answer(call).unwrap_or_else(Answer::Refused)
    }

    fn answer(&self, call: Call) -> Result<Answer, u32> {
        match call {
            Call::New => self.handed_out(),
            Call::Hold { s } => self.named(s).and_then(|_| self.handed_out()),
            Call::Release { s } => self.named(s).map(|_| Answer::Done),
            Call::Size { s } => self.named(s).map(|list| Answer::Word(list.len() as u32)),
            Call::FreeNodes => Ok(Answer::Word(self.free as u32)),
            Call::Get { s, key } => find(self.named(s)?, key).map(|(_, value)| Answer::Word(value)).ok_or(ABSENT),
            Call::First { s } => self.named(s)?.first().copied().map(entry).ok_or(ABSENT),
            Call::Last { s } => self.named(s)?.last().copied().map(entry).ok_or(ABSENT),
            Call::Insert { s, .. } => self.edit(s, |list| h(list.len()) + 1),
            Call::Remove { s, key } => self.edit(s, |list| find(list, key).map_or(0, |_| 6 * h(list.len()) + 2)),
            Call::Compare { s, t } => Ok(Answer::Word(self.named(s)?.cmp(self.named(t)?) as i32 as u32)),
            Call::Equal { s, t } => Ok(truth(self.named(s)? == self.named(t)?)),
            Call::Step { end, walk } => step(self.named(walk.slot)?, end, &walk),
            Call::RescaleMark { s } => Ok(truth(find(self.named(s)?, RESCALE_SLOPE).is_some())),
            Call::Difference { at } => self.difference(at).map(Answer::Difference),
            Call::Format { .. } | Call::Sound => unreachable!("these are asked on unsound arenas too, and so apart"),
        }
    }

    pub fn held(&self) -> Vec<u32> {
        (0..self.slots.len() as u32).filter(|s| self.slots[*s as usize].is_some()).collect()
    }

    fn named(&self, s: u32) -> Result<&Listing, u32> {
        self.slots.get(s as usize).and_then(Option::as_ref).ok_or(NO_VERSION)
    }

    fn handed_out(&self) -> Result<Answer, u32> {
        self.slots.iter().position(Option::is_none).map(|s| Answer::Word(s as u32)).ok_or(NO_SLOT)
    }

    fn edit(&self, s: u32, reserve: impl Fn(&Listing) -> usize) -> Result<Answer, u32> {
        let list = self.named(s)?;
        let slot = self.handed_out()?;
        if self.free < reserve(list) { Err(NO_ROOM) } else { Ok(slot) }
    }

    /// The least tag above the last key whose entry is not one of the other listing too.
    fn difference(&self, at: Differences) -> Result<Difference, u32> {
        let (first, second) = (self.named(at.first)?, self.named(at.second)?);
        let (one, other) = (own(first, second, at.given), own(second, first, at.given));
        let key = one.into_iter().chain(other).min().ok_or(END)?;
        let value = |list: &Listing| find(list, key).map(|e| e.1);
        let (kind, first, second) = match (value(first), value(second)) {
            (Some(one), None) => (ONLY_FIRST, one, 0),
            (None, Some(other)) => (ONLY_SECOND, 0, other),
            (Some(one), Some(other)) => (IN_BOTH, one, other),
            (None, None) => unreachable!("a listing has the key"),
        };
        Ok(Difference { kind, key, first, second })
    }

    /// The listings after an accepted call that writes and gives this answer.
    pub fn after(&self, call: Call, answer: Answer) -> Vec<Option<Listing>> {
        let mut slots = self.slots.clone();
        let list = |s: u32| self.slots[s as usize].clone().expect("an accepted call names a held slot");
        let new = match call {
            Call::Release { s } => {
                slots[s as usize] = None;
                return slots;
            }
            Call::New => Listing::new(),
            Call::Hold { s } => list(s),
            Call::Insert { s, key, value } => {
                let kept = list(s).into_iter().filter(|e| e.0 != key);
                let mut list: Listing = kept.chain([(key, value)]).collect();
                list.sort();
                list
            }
            Call::Remove { s, key } => list(s).into_iter().filter(|e| e.0 != key).collect(),
            _ => unreachable!("no other call on a sound arena writes"),
        };
        if let Answer::Word(slot) = answer {
            slots[slot as usize] = Some(new);
        }
        slots
    }
}

/// Format's answer, which asks for no sound arena.
pub fn format(len: usize, n: u32, v: u32) -> Result<Answer, u32> {
    let fits = (1..=2047).contains(&n) && (1..=32).contains(&v) && len == arena_len(n, v);
    if fits { Ok(Answer::Done) } else { Err(BAD_SHAPE) }
}

fn h(n: usize) -> usize {
    if n == 0 { 0 } else { 2 * (n + 1).ilog2() as usize }
}

fn find(list: &Listing, key: u32) -> Option<(u32, u32)> {
    list.iter().copied().find(|e| e.0 == key)
}

/// The least key above the last one given whose entry the other listing does not have.
fn own(list: &Listing, other: &Listing, given: (u32, u32)) -> Option<u32> {
    let mut left = list.iter().filter(|e| given.0 == 0 || e.0 > given.1);
    // A listing is sorted as a list of pairs too.
    left.find(|e| other.binary_search(e).is_err()).map(|e| e.0)
}

fn entry((key, value): (u32, u32)) -> Answer {
    Answer::Entry(key, value)
}

fn step(list: &Listing, end: End, walk: &Walk) -> Result<Answer, u32> {
    if bad_range(walk.start, walk.end) {
        return Err(BAD_RANGE);
    }
    let left = |e: &&(u32, u32)| remains(walk, e.0);
    let found = match end {
        End::Front => list.iter().find(left),
        End::Back => list.iter().rev().find(left),
    };
    found.copied().map(entry).ok_or(END)
}

fn bad_range(start: Bound, end: Bound) -> bool {
    let given = |kind: u32| kind == 1 || kind == 2;
    let both = given(start.kind) && given(end.kind);
    both && (start.key > end.key || (start.key == end.key && start.kind == 2 && end.kind == 2))
}

fn remains(walk: &Walk, key: u32) -> bool {
    let above = match walk.start.kind {
        1 => walk.start.key <= key,
        2 => walk.start.key < key,
        _ => true,
    };
    let below = match walk.end.kind {
        1 => key <= walk.end.key,
        2 => key < walk.end.key,
        _ => true,
    };
    above && below && (walk.front.0 == 0 || key > walk.front.1) && (walk.back.0 == 0 || key < walk.back.1)
}
