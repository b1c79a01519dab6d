//! The library's arena and the model of it, side by side: each call is made on the one and compared with the other.
use crate::counts::Counts;
use crate::frame;
use crate::model::{Held, Model};
use crate::twins::Entered;
use library::Subject;
use library::call::{Answer, Call};
use library::layout;
use library::lent::Lent;
use library::outcome::{Outcome, holds, same};
use seen::{Map, Seen};
use std::rc::Rc;

#[derive(Clone)]
pub struct Pair<S> {
    pub subject: S,
    pub lent: Lent,
    pub model: Model,
    /// The words before the last call.
    before: Vec<u32>,
    /// The free number that the library gave after the last call that wrote.
    free: u32,
    /// How many more writing calls go by before the checker looks at a large arena again.
    unchecked: u32,
}

/// Arenas of more nodes are given to the checker once in so many calls, as it reads every version whole.
const SMALL: u32 = 300;
const SELDOM: u32 = 8;

impl<S: Subject> Pair<S> {
    /// A formatted arena, made of words with any old contents.
    pub fn start(subject: S, n: u32, v: u32, old: u32, counts: &mut Counts) -> Outcome<Pair<S>> {
        let lent = Lent::arena(n, v, old);
        let model = Model { len: lent.words().len(), ..Model::formatted(1, 1) };
        let mut pair = Pair { subject, before: Vec::new(), lent, model, free: 0, unchecked: 0 };
        pair.call(Call::Format { n, v }, counts)?;
        Ok(pair)
    }

    /// Makes the call on the arena and on the model, and compares answers, versions and words.
    pub fn call(&mut self, call: Call, counts: &mut Counts) -> Outcome<Answer> {
        self.compare_call(call, counts).map_err(|message| format!("{call:?}: {message}"))
    }

    fn compare_call(&mut self, call: Call, counts: &mut Counts) -> Outcome<Answer> {
        self.before.clear();
        self.before.extend_from_slice(self.lent.words());
        let expected = self.model.expected(call);
        let found = self.subject.call(&mut self.lent, call);
        counts.count(call, found);
        counts.refused_by(&self.model, found);
        same("answer", expected, found)?;
        holds("no word beside the lent ones is written", self.lent.guards_whole())?;
        if !call.writes() || matches!(found, Answer::Refused(_)) {
            holds("a call that is refused, or reads, changes no word", self.before == self.lent.words())?;
            return Ok(found);
        }
        self.check()?;
        frame::compare(call, slot_of(call, found), &self.before, self.lent.words())?;
        self.follow(call, found, counts)?;
        Ok(found)
    }

    fn check(&mut self) -> Outcome {
        if self.model.n > SMALL && self.unchecked > 0 {
            self.unchecked -= 1;
            return Ok(());
        }
        self.unchecked = SELDOM - 1;
        holds("the arena is sound after the call", checker::sound(self.lent.words()))
    }

    /// The model after an accepted call; a new version is compared with rpds's node by node.
    fn follow(&mut self, call: Call, found: Answer, counts: &mut Counts) -> Outcome {
        let slot = slot_of(call, found);
        let taken = match call {
            Call::New => Some(self.enter(slot, Map::new(), counts)?),
            Call::Insert { s, key, value } => Some(self.enter(slot, self.parent(s).insert(key, value), counts)?),
            Call::Remove { s, key } => Some(self.enter(slot, self.parent(s).remove(&key), counts)?),
            Call::Hold { s } => Some(self.hold(s, slot)?),
            Call::Release { s } => {
                self.release(s);
                None
            }
            Call::Format { n, v } => {
                self.model = Model::formatted(n, v);
                None
            }
            _ => unreachable!("every call that writes is above"),
        };
        counts.fullest(&self.model);
        let before = self.free;
        self.free = self.free_number(counts)?;
        same("free number, by the account", self.model.free(), self.free)?;
        taken.map_or(Ok(()), |taken| {
            same("free number, less the nodes that rpds has made", before.wrapping_sub(taken), self.free)
        })
    }

    fn release(&mut self, s: u32) {
        let held = self.model.slots[s as usize].take().expect("an accepted release names a held slot");
        self.model.twins.release(&held.nodes);
    }

    /// A second slot, which takes no node.
    fn hold(&mut self, s: u32, slot: u32) -> Outcome<u32> {
        let words = self.lent.words();
        same("root and size of the second slot", layout::slot(words, s), layout::slot(words, slot))?;
        let held = self.model.slots[s as usize].clone().expect("an accepted hold names a held slot");
        self.model.twins.hold(&held.nodes);
        self.model.slots[slot as usize] = Some(held);
        Ok(0)
    }

    fn free_number(&mut self, counts: &mut Counts) -> Outcome<u32> {
        let found = self.subject.call(&mut self.lent, Call::FreeNodes);
        counts.count(Call::FreeNodes, found);
        match found {
            Answer::Word(free) => Ok(free),
            _ => Err(format!("free nodes gives {found:?}")),
        }
    }

    fn parent(&self, s: u32) -> &Map {
        self.model.map(s).expect("an accepted edit names a held slot")
    }

    /// The new version in its slot: size, nodes and listing. Gives how many nodes rpds has made.
    fn enter(&mut self, slot: u32, map: Map, counts: &mut Counts) -> Outcome<u32> {
        let words = self.lent.words();
        let (root, _) = layout::slot(words, slot);
        let Entered { nodes, fresh } = self.model.twins.enter(&Seen::of(&map), words, root)?;
        same("nodes of the new version", map.size(), nodes.len())?;
        counts.nodes += nodes.len() as u64;
        counts.fresh += fresh as u64;
        counts.largest = counts.largest.max(map.size());
        self.model.slots[slot as usize] = Some(Held { map, nodes: Rc::new(nodes) });
        self.compare_listing(slot)?;
        Ok(fresh as u32)
    }

    /// The listing of a held slot, read from the words, beside rpds's iterator.
    pub fn compare_listing(&self, s: u32) -> Outcome {
        let map = self.model.map(s).expect("the slot is held");
        let (root, size) = layout::slot(self.lent.words(), s);
        same("stored size", map.size(), size as usize)?;
        let found = layout::listing(self.lent.words(), root);
        let expected: Vec<(u32, u32)> = map.iter().map(|(key, value)| (*key, *value)).collect();
        same("listing", expected, found)
    }

    /// A version of rpds's that an empty arena was filled with by other calls, in slot `s`, the only one held.
    pub fn adopt(&mut self, s: u32, map: Map, counts: &mut Counts) -> Outcome {
        holds("the filled arena is sound", checker::sound(self.lent.words()))?;
        self.model = Model::formatted(self.model.n, self.model.v());
        self.enter(s, map, counts)?;
        self.free = self.free_number(counts)?;
        same("free number of the filled arena", self.model.free(), self.free)
    }
}

/// The slot that an accepted call hands out or gives up.
fn slot_of(call: Call, found: Answer) -> u32 {
    match (call, found) {
        (Call::Release { s }, _) => s,
        (_, Answer::Word(slot)) => slot,
        _ => u32::MAX,
    }
}
