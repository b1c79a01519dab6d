//! An arena of the library's and rpds's maps with the same versions in them.
use library::call::{Answer, Call};
use library::lent::Lent;
use library::{Library, Subject};
use rpds::RedBlackTreeMap;

pub type Map = RedBlackTreeMap<u32, u32>;

/// What is timed: N, V, how many entries a version has, and how many versions are held.
#[derive(Clone, Copy, Debug)]
pub struct Plan {
    pub n: u32,
    pub v: u32,
    pub entries: usize,
    pub versions: usize,
}

pub struct Arena {
    pub lent: Lent,
    /// The slots that are held, the newest version last, and rpds's maps beside them.
    pub slots: Vec<u32>,
    pub maps: Vec<Map>,
    /// The keys that are there, in listing order.
    pub keys: Vec<u32>,
}

/// An edit of a version.
#[derive(Clone, Copy)]
pub enum Edit {
    Set(u32, u32),
    Cut(u32),
}

impl Edit {
    fn call(self, s: u32) -> Call {
        match self {
            Edit::Set(key, value) => Call::Insert { s, key, value },
            Edit::Cut(key) => Call::Remove { s, key },
        }
    }

    fn apply(self, map: &mut Map) {
        match self {
            Edit::Set(key, value) => map.insert_mut(key, value),
            Edit::Cut(key) => assert!(map.remove_mut(&key), "a key that is cut was there"),
        }
    }
}

/// "H(0) = 0 and otherwise H(n) = 2 × floor(log2(n+1))."
pub fn height(n: usize) -> usize {
    if n == 0 { 0 } else { 2 * (n + 1).ilog2() as usize }
}

/// Keys in an order that is neither ascending nor clustered: an odd multiplier takes no number twice. None is 0.
fn key(i: usize) -> u32 {
    (i as u32 + 1).wrapping_mul(0x9e37_79b1)
}

impl Arena {
    /// The versions differ from one another in a value as long as `reserve` nodes stay free; further ones are second slots for the last.
    pub fn new(plan: Plan, reserve: usize) -> Arena {
        let mut arena = Arena::formatted(plan.n, plan.v);
        arena.build((0..plan.entries).map(|i| (key(i), i as u32)));
        (1..plan.versions).for_each(|number| arena.add_version(number, reserve));
        arena
    }

    /// Two versions of the same keys that share no node, built in opposite orders; each value of
    /// the second is so much more.
    pub fn apart(n: u32, v: u32, entries: usize, more: u32) -> Arena {
        let mut arena = Arena::formatted(n, v);
        arena.build((0..entries).map(|i| (key(i), i as u32)));
        arena.build((0..entries).rev().map(|i| (key(i), i as u32 + more)));
        let free = n - 2 * entries as u32;
        assert_eq!(word(&mut arena.lent, Call::FreeNodes), free, "no node is shared");
        arena
    }

    /// Two versions of the same entries that share no node, and a third that shares with the second
    /// and has another value at the greatest key.
    pub fn built_apart(n: u32, v: u32, entries: usize) -> Arena {
        let mut arena = Arena::apart(n, v, entries, 0);
        arena.add_version(1, 0);
        assert_ne!(arena.maps[1], arena.maps[2], "there was room for the third version");
        arena
    }

    /// An arena without a version.
    pub fn formatted(n: u32, v: u32) -> Arena {
        let mut lent = Lent::arena(n, v, 0);
        expect(&mut lent, Call::Format { n, v }, Answer::Done);
        Arena { lent, slots: Vec::new(), maps: Vec::new(), keys: Vec::new() }
    }

    /// Adds a version of these entries.
    fn build(&mut self, entries: impl Iterator<Item = (u32, u32)>) {
        let empty = (word(&mut self.lent, Call::New), Map::new());
        self.grow(empty, entries.map(|(key, value)| Edit::Set(key, value)));
    }

    /// Adds the version that these edits make of the newest, which stays.
    pub fn edit(&mut self, edits: impl IntoIterator<Item = Edit>) {
        let (s, map) = (self.newest(), self.newest_map().clone());
        let held = (word(&mut self.lent, Call::Hold { s }), map);
        self.grow(held, edits);
    }

    /// Adds what the edits make of a slot and its map; each version on the way there is released.
    fn grow(&mut self, (mut slot, mut map): (u32, Map), edits: impl IntoIterator<Item = Edit>) {
        for edit in edits {
            let next = word(&mut self.lent, edit.call(slot));
            expect(&mut self.lent, Call::Release { s: slot }, Answer::Done);
            edit.apply(&mut map);
            slot = next;
        }
        self.keys = map.keys().copied().collect();
        self.slots.push(slot);
        self.maps.push(map);
    }

    /// Sets the greatest key in the newest version, or holds that once more where the nodes run short.
    fn add_version(&mut self, number: usize, reserve: usize) {
        let s = *self.slots.last().expect("a version is held");
        let map = self.maps.last().expect("a version is held");
        let greatest = *self.keys.last().expect("a version has entries");
        let fits = word(&mut self.lent, Call::FreeNodes) as usize > reserve + height(self.keys.len());
        let value = 10_000 + number as u32;
        let (made, map) = if fits {
            (Call::Insert { s, key: greatest, value }, map.insert(greatest, value))
        } else {
            (Call::Hold { s }, map.clone())
        };
        self.slots.push(word(&mut self.lent, made));
        self.maps.push(map);
    }

    pub fn newest(&self) -> u32 {
        *self.slots.last().expect("a version is held")
    }

    pub fn newest_map(&self) -> &Map {
        self.maps.last().expect("a version is held")
    }

    /// Gives up the version at this place of the list.
    pub fn give_up(&mut self, place: usize) {
        let s = self.slots.remove(place);
        self.maps.remove(place);
        expect(&mut self.lent, Call::Release { s }, Answer::Done);
    }

    /// So many keys spread over the listing, none of an empty one.
    pub fn some_keys(&self, count: usize) -> Vec<u32> {
        let count = if self.keys.is_empty() { 0 } else { count };
        (0..count).map(|i| self.keys[(i * self.keys.len() + self.keys.len() / 2) / count]).collect()
    }

    /// So many keys that are not there, spread alike.
    pub fn other_keys(&self, count: usize) -> Vec<u32> {
        let keys: Vec<u32> = self.some_keys(count).into_iter().map(|key| key.wrapping_add(1)).collect();
        assert!(keys.iter().all(|key| self.keys.binary_search(key).is_err()), "no key is there");
        keys
    }
}

pub fn call(lent: &mut Lent, call: Call) -> Answer {
    Library.call(lent, call)
}

/// The call has to give this answer: what is timed has to be what was meant.
pub fn expect(lent: &mut Lent, made: Call, answer: Answer) {
    assert_eq!(call(lent, made), answer, "{made:?}");
}

/// The word that a call gives, which has to be accepted.
pub fn word(lent: &mut Lent, made: Call) -> u32 {
    match call(lent, made) {
        Answer::Word(word) => word,
        other => panic!("{made:?} gave {other:?}"),
    }
}
