//! What is timed has to answer as rpds does.
use crate::arena::{Arena, Map, height};
use crate::revision::Revision;
use library::call::{ABSENT, Answer, Call, END, End, NO_ROOM, UNBOUNDED, Walk, truth};
use library::layout::{listing, node, nodes, slot};
use std::ops::Bound::{Excluded, Unbounded};

/// How many keys are asked for.
const KEYS: usize = 64;

/// The free nodes by the words: those that nothing counts.
pub fn free_nodes(words: &[u32]) -> usize {
    (1..=nodes(words) as u32).filter(|i| node(words, *i).count == 0).count()
}

/// Sees that the revision answers every call on the arena as rpds does on the maps beside it. One
/// version is given up where all slots are held, so that a slot can be handed out.
pub fn check(revision: &Revision, arena: &mut Arena) {
    let mut checked = Checked { revision, arena };
    checked.whole_arena();
    checked.lookups();
    checked.steps();
    checked.comparisons();
    checked.edits();
}

struct Checked<'a> {
    revision: &'a Revision,
    arena: &'a mut Arena,
}

impl Checked<'_> {
    fn expect(&mut self, made: Call, answer: Answer) {
        assert_eq!(self.revision.call(&mut self.arena.lent, made), answer, "{}: {made:?}", self.revision.name);
    }

    fn map(&self) -> Map {
        self.arena.newest_map().clone()
    }

    fn whole_arena(&mut self) {
        self.expect(Call::Sound, truth(true));
        self.expect(Call::FreeNodes, Answer::Word(free_nodes(self.arena.lent.words()) as u32));
    }

    fn lookups(&mut self) {
        let (s, map) = (self.arena.newest(), self.map());
        self.expect(Call::Size { s }, Answer::Word(map.size() as u32));
        self.expect(Call::First { s }, entry_or(map.first(), ABSENT));
        self.expect(Call::Last { s }, entry_or(map.last(), ABSENT));
        for key in self.arena.some_keys(KEYS).into_iter().chain(self.arena.other_keys(KEYS)) {
            let value = map.get(&key).map_or(Answer::Refused(ABSENT), |value| Answer::Word(*value));
            self.expect(Call::Get { s, key }, value);
        }
    }

    fn steps(&mut self) {
        let map = self.map();
        let walk = Walk::new(self.arena.newest(), UNBOUNDED, UNBOUNDED);
        for key in self.arena.some_keys(KEYS) {
            let before = entry_or(map.range((Unbounded, Excluded(key))).next_back(), END);
            let after = entry_or(map.range((Excluded(key), Unbounded)).next(), END);
            self.expect(Call::Step { end: End::Front, walk: walk.stepped(End::Front, key) }, after);
            self.expect(Call::Step { end: End::Back, walk: walk.stepped(End::Back, key) }, before);
        }
    }

    fn comparisons(&mut self) {
        let (s, t) = (self.arena.slots[0], self.arena.newest());
        let (one, other) = (self.arena.maps[0].clone(), self.map());
        self.expect(Call::Compare { s, t }, Answer::Word(one.cmp(&other) as i32 as u32));
        self.expect(Call::Compare { s: t, t: s }, Answer::Word(other.cmp(&one) as i32 as u32));
        self.expect(Call::Equal { s, t }, truth(one == other));
    }

    fn edits(&mut self) {
        if self.arena.slots.len() == self.arena.lent.words()[1] as usize {
            self.arena.give_up(0);
        }
        let (s, map) = (self.arena.newest(), self.map());
        let height = height(map.size());
        for key in self.arena.other_keys(KEYS) {
            self.edit(Call::Insert { s, key, value: 7 }, height + 1, map.insert(key, 7));
        }
        for key in self.arena.some_keys(KEYS) {
            self.edit(Call::Remove { s, key }, 6 * height + 2, map.remove(&key));
        }
    }

    /// The version that the call makes lists what rpds's map does, and is given up again.
    fn edit(&mut self, made: Call, reserve: usize, map: Map) {
        if free_nodes(self.arena.lent.words()) < reserve {
            return self.expect(made, Answer::Refused(NO_ROOM));
        }
        let Answer::Word(s) = self.revision.call(&mut self.arena.lent, made) else { panic!("{made:?} was refused") };
        let words = self.arena.lent.words();
        let listed = listing(words, slot(words, s).0);
        assert!(listed.iter().map(|(key, value)| (key, value)).eq(map.iter()), "{}: {made:?}", self.revision.name);
        self.expect(Call::Release { s }, Answer::Done);
        self.expect(Call::Sound, truth(true));
    }
}

fn entry_or(entry: Option<(&u32, &u32)>, refusal: u32) -> Answer {
    entry.map_or(Answer::Refused(refusal), |(key, value)| Answer::Entry(*key, *value))
}
