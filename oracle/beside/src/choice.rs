//! Which call comes next in a history.
use crate::audits::any_position;
use crate::counts::Counts;
use crate::looks;
use crate::model::Model;
use crate::pair::Pair;
use crate::walks::{any_bound, near};
use common::keys::Keys;
use common::random::Random;
use library::Subject;
use library::call::{Answer, Call, Differences, End, Walk};
use library::outcome::Outcome;

/// (0028,1052) and (0028,1053).
const RESCALE: [u32; 2] = [2_625_618, 2_625_619];

/// Walks, and audits of two versions, that go on between other calls.
const KEPT: usize = 3;

pub struct History {
    keys: Keys,
    /// The most entries that a version is meant to have.
    most: usize,
    /// An arena that was filled on purpose is not formatted again, and its largest version is used and kept.
    keep: bool,
    pub newest: u32,
    filling: bool,
    /// How many slots are meant to be held.
    target: usize,
    number: u32,
    walks: Vec<Walk>,
    audits: Vec<Differences>,
}

impl History {
    pub fn new(keys: Keys, most: usize, keep: bool) -> History {
        let (walks, audits) = (Vec::new(), Vec::new());
        History { keys, most, keep, newest: 0, filling: true, target: 2, number: 0, walks, audits }
    }

    pub fn new_key(&mut self, random: &mut Random) -> u32 {
        self.number += 1;
        if matches!(self.keys, Keys::Groups) && random.one_in(10) {
            return RESCALE[random.below(2)];
        }
        self.keys.pick(self.number, self.most, random)
    }

    /// One call of any kind, and questions about what it touched.
    pub fn call<S: Subject>(&mut self, pair: &mut Pair<S>, random: &mut Random, counts: &mut Counts) -> Outcome {
        if random.one_in(60) {
            self.target = 1 + random.below(pair.model.slots.len());
            self.filling = !self.filling;
        }
        let call = self.choose(&pair.model, random);
        let answer = pair.call(call, counts)?;
        self.follow(call, answer);
        looks::compare(pair, call, answer, random, counts)
    }

    fn follow(&mut self, call: Call, answer: Answer) {
        match (call, answer) {
            (Call::Insert { .. } | Call::Remove { .. }, Answer::Word(slot)) => self.newest = slot,
            (Call::Step { end, walk }, Answer::Entry(key, _)) => self.walks.push(walk.stepped(end, key)),
            (Call::Difference { at }, Answer::Difference(d)) => self.audits.push(at.stepped(d.key)),
            _ => {}
        }
    }

    fn choose(&mut self, model: &Model, random: &mut Random) -> Call {
        let held = model.held();
        if held.is_empty() && !random.one_in(8) {
            return Call::New;
        }
        if held.len() > self.target && random.one_in(2) {
            return Call::Release { s: self.old(model, random) };
        }
        match random.below(100) {
            0..=44 => self.edit(model, random),
            45..=50 => Call::Hold { s: self.slot(model, random) },
            51..=53 if !self.keep || random.one_in(4) => Call::New,
            54..=61 if !self.keep => Call::Release { s: self.slot(model, random) },
            54..=57 => Call::Release { s: self.old(model, random) },
            62 => self.format(model, random),
            _ => self.reading(model, random),
        }
    }

    /// The slot that calls are made on most often: the newest version, or where the arena was filled the largest.
    fn favourite(&self, model: &Model) -> u32 {
        let largest = || model.held().into_iter().max_by_key(|s| model.map(*s).map(|map| map.size()));
        if self.keep { largest().unwrap_or(0) } else { self.newest }
    }

    /// A slot that is held, if there is one, and most often not the favourite.
    fn old(&self, model: &Model, random: &mut Random) -> u32 {
        let held = model.held();
        if held.is_empty() {
            return self.slot(model, random);
        }
        let s = held[random.below(held.len())];
        if s == self.favourite(model) && !random.one_in(8) { held[random.below(held.len())] } else { s }
    }

    /// A slot that is held, now and then one that is not or cannot be.
    fn slot(&self, model: &Model, random: &mut Random) -> u32 {
        let held = model.held();
        if held.is_empty() || random.one_in(14) {
            return [random.below(model.slots.len()) as u32, impossible(model, random)][random.below(2)];
        }
        let favourite = self.favourite(model);
        let other = held[random.below(held.len())];
        if held.contains(&favourite) && !random.one_in(if self.keep { 4 } else { 2 }) { favourite } else { other }
    }

    fn edit(&mut self, model: &Model, random: &mut Random) -> Call {
        let s = self.slot(model, random);
        let insert = random.one_in(5) != self.filling;
        let there = if insert { random.one_in(6) } else { !random.one_in(5) };
        let wanted = self.new_key(random);
        let key = if there { self.present(model, s, random).unwrap_or(wanted) } else { wanted };
        if insert { Call::Insert { s, key, value: value(random) } } else { Call::Remove { s, key } }
    }

    fn present(&self, model: &Model, s: u32, random: &mut Random) -> Option<u32> {
        let map = model.map(s)?;
        let ends = match self.keys {
            Keys::Ascending => map.first(),
            Keys::Descending => map.last(),
            _ => None,
        };
        let any = map.iter().nth(random.below(map.size().max(1)));
        let chosen = if random.one_in(3) { ends.or(any) } else { any };
        chosen.map(|(key, _)| *key)
    }

    /// The arena's own sizes, others of the same length, and sizes that are refused.
    fn format(&self, model: &Model, random: &mut Random) -> Call {
        let (n, v) = (model.n, model.v());
        let (n, v) = match random.below(8) {
            0 => (n, v),
            1 if n > 1 => (n - 1, v + 3),
            2 if v > 3 => (n + 1, v - 3),
            3 => (n, v + 1),
            4 => (0, v),
            5 => (2048, v),
            6 => (n, 33),
            _ => (random.word(), random.word()),
        };
        if self.keep && n <= 2047 && v <= 32 { Call::Format { n, v: v + 1 } } else { Call::Format { n, v } }
    }

    fn reading(&mut self, model: &Model, random: &mut Random) -> Call {
        let s = self.slot(model, random);
        match random.below(14) {
            0 => Call::Size { s },
            1 => Call::FreeNodes,
            2 => Call::Get { s, key: self.present(model, s, random).unwrap_or(7) },
            3 => Call::Get { s, key: self.new_key(random) },
            4 => Call::First { s },
            5 => Call::Last { s },
            6 => Call::Compare { s, t: self.slot(model, random) },
            7 => Call::Equal { s, t: self.slot(model, random) },
            8 => Call::RescaleMark { s },
            9 => Call::Sound,
            10 | 11 => self.difference(model, s, random),
            _ => self.step(model, s, random),
        }
    }

    /// A step of a walk that goes on though its slot may have changed, or of one with any last keys.
    fn step(&mut self, model: &Model, s: u32, random: &mut Random) -> Call {
        let end = if random.one_in(2) { End::Front } else { End::Back };
        if let Some(walk) = resumed(&mut self.walks, random) {
            return Call::Step { end, walk };
        }
        let keys: Vec<u32> = model.map(s).map_or(Vec::new(), |map| map.keys().copied().collect());
        let mut key = || near(&keys, random.below(keys.len() + 1), random);
        let [start, finish, front, back] = [key(), key(), key(), key()];
        let (start, finish) = if random.one_in(3) { (start, finish) } else { (start.min(finish), start.max(finish)) };
        let walk = Walk::new(s, any_bound(start, random), any_bound(finish, random));
        let given = |random: &mut Random| [0, 0, 1, random.word()][random.below(4)];
        Call::Step { end, walk: Walk { front: (given(random), front), back: (given(random), back), ..walk } }
    }

    /// A step of an audit that goes on though its slots may have changed, or from any position.
    fn difference(&mut self, model: &Model, s: u32, random: &mut Random) -> Call {
        let t = self.slot(model, random);
        let kept = resumed(&mut self.audits, random);
        Call::Difference { at: kept.unwrap_or_else(|| any_position(model, s, t, random)) }
    }
}

/// A slot that cannot be: just beyond the last, or one whose lowest bits are those of a slot.
pub fn impossible(model: &Model, random: &mut Random) -> u32 {
    let s = random.below(model.slots.len()) as u32;
    let far = [32, 256, 65_536, 1 << 31].map(|more| s + more);
    let near = [model.v(), model.v() + 1, u32::MAX];
    if random.one_in(2) { near[random.below(3)] } else { far[random.below(4)] }
}

/// Few different values, so that equal entries come up, and now and then a great one.
fn value(random: &mut Random) -> u32 {
    if random.one_in(12) {
        return [1 << 31, u32::MAX, random.word()][random.below(3)];
    }
    random.below(3) as u32
}

/// One of those that go on, or none, so that another is begun.
fn resumed<T>(kept: &mut Vec<T>, random: &mut Random) -> Option<T> {
    let resume = kept.len() > KEPT || (!kept.is_empty() && random.one_in(2));
    resume.then(|| kept.swap_remove(random.below(kept.len())))
}
