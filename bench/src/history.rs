//! Arenas after a history of random edits: the nodes of a tree, and the free ones, lie in no order.
use crate::arena::{Arena, Map, expect, height, word};
use common::random::Random;
use library::call::{Answer, Call, NO_ROOM};

/// How often the entries become many and few again.
const WAVES: usize = 3;

/// Where a history ends.
#[derive(Clone, Copy)]
pub enum Until {
    /// The next insert is refused for want of nodes.
    Full,
    /// One version of so many entries is left.
    Entries(usize),
}

struct History {
    arena: Arena,
    random: Random,
    /// The most versions that are kept after an edit.
    kept: usize,
}

/// An arena of n nodes and v slots; so many versions are kept at most, fewer than v.
pub fn after(n: u32, v: u32, kept: usize, until: Until) -> Arena {
    let mut arena = Arena::formatted(n, v);
    arena.slots.push(word(&mut arena.lent, Call::New));
    arena.maps.push(Map::new());
    let mut history = History { arena, random: Random::new(u64::from(n)), kept };
    for _ in 0..WAVES {
        history.rise();
        history.fall(n as usize / 8);
    }
    match until {
        Until::Full => history.fill(),
        Until::Entries(entries) => history.end_with(entries),
    }
    history.arena.keys.sort();
    history.arena
}

fn insert_reserve(entries: usize) -> usize {
    height(entries) + 1
}

fn remove_reserve(entries: usize) -> usize {
    6 * height(entries) + 2
}

impl History {
    fn entries(&self) -> usize {
        self.arena.keys.len()
    }

    fn has_room(&mut self, nodes: usize) -> bool {
        word(&mut self.arena.lent, Call::FreeNodes) as usize >= nodes
    }

    /// Whether a removal finds room, once old versions are given up where they have to be.
    fn has_room_to_remove(&mut self) -> bool {
        let reserve = remove_reserve(self.entries());
        while !self.has_room(reserve) && self.arena.slots.len() > 1 {
            self.arena.give_up(0);
        }
        self.has_room(reserve)
    }

    /// Three inserts to a removal, until an insert might leave no room for a removal.
    fn rise(&mut self) {
        while self.has_room(insert_reserve(self.entries()) + remove_reserve(self.entries() + 1)) {
            if self.random.one_in(4) { self.remove() } else { self.insert() }
        }
    }

    /// Three removals to an insert, until so few entries are left.
    fn fall(&mut self, few: usize) {
        while self.entries() > few && self.has_room_to_remove() {
            if self.random.one_in(4) { self.insert() } else { self.remove() }
        }
    }

    fn fill(&mut self) {
        while self.has_room(insert_reserve(self.entries())) {
            self.insert();
        }
        let (s, key) = (self.arena.newest(), self.new_key());
        expect(&mut self.arena.lent, Call::Insert { s, key, value: 0 }, Answer::Refused(NO_ROOM));
    }

    fn end_with(&mut self, entries: usize) {
        self.rise();
        while self.entries() > entries && self.has_room_to_remove() {
            self.remove();
        }
        assert_eq!(self.entries(), entries, "the history ends with so many entries");
        while self.arena.slots.len() > 1 {
            self.arena.give_up(0);
        }
    }

    /// A key that is not there, nor are its neighbours: these are asked for as absent ones.
    fn new_key(&mut self) -> u32 {
        loop {
            let key = self.random.word();
            let there = |key| self.arena.newest_map().contains_key(&key);
            if key > 1 && key < u32::MAX && !(key - 1..=key + 1).any(there) {
                return key;
            }
        }
    }

    fn insert(&mut self) {
        let (s, key, value) = (self.arena.newest(), self.new_key(), self.random.word());
        let map = self.arena.newest_map().insert(key, value);
        self.arena.keys.push(key);
        self.add(Call::Insert { s, key, value }, map);
    }

    fn remove(&mut self) {
        if self.entries() == 0 {
            return;
        }
        let place = self.random.below(self.entries());
        let (s, key) = (self.arena.newest(), self.arena.keys.swap_remove(place));
        let map = self.arena.newest_map().remove(&key);
        self.add(Call::Remove { s, key }, map);
    }

    /// Adds the version that the call makes, and gives up an older one where there are too many.
    fn add(&mut self, made: Call, map: Map) {
        self.arena.slots.push(word(&mut self.arena.lent, made));
        self.arena.maps.push(map);
        if self.arena.slots.len() > self.kept {
            let older = self.random.below(self.kept);
            self.arena.give_up(older);
        }
    }
}
