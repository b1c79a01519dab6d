//! The versions held, each a map of rpds's in a slot, and the list of what rpds answered so far.
use crate::line::{ABSENT, Answer, Call, Line};
use crate::tags::RESCALE_SLOPE;
use rpds::RedBlackTreeMap;
use std::cmp::Ordering;
use steps::height::{insert_reserve, remove_reserve};

pub type Map = RedBlackTreeMap<u32, u32>;

/// The arena of `crates/replay`.
const NODES: usize = 2047;
pub const SLOTS: usize = 32;

/// −1 in two's complement.
const LESS: u32 = u32::MAX;

#[derive(Default)]
pub struct Book {
    slots: [Option<Map>; SLOTS],
    pub lines: Vec<Line>,
}

impl Book {
    pub fn record(&mut self, call: Call, arguments: &[u32], answer: Answer) {
        self.lines.push(Line::new(call, arguments, answer));
    }

    /// The last line, by which a line that is missing shows.
    pub fn finish(&mut self) {
        let calls = self.lines.len() as u32;
        self.record(Call::Finish, &[], Answer::value(calls));
    }

    /// The slots that hold a version, the lowest first.
    pub fn held(&self) -> Vec<u32> {
        (0..).zip(&self.slots).filter(|(_, version)| version.is_some()).map(|(slot, _)| slot).collect()
    }

    pub fn version(&self, slot: u32) -> &Map {
        self.slots[slot as usize].as_ref().expect("a slot that is held")
    }

    pub fn new_version(&mut self) -> u32 {
        self.hand_out(Call::New, &[], Map::new())
    }

    pub fn hold(&mut self, slot: u32) -> u32 {
        let version = self.version(slot).clone();
        self.hand_out(Call::Hold, &[slot], version)
    }

    pub fn release(&mut self, slot: u32) {
        self.slots[slot as usize].take().expect("a slot that is held");
        self.record(Call::Release, &[slot], Answer::Values(vec![]));
    }

    pub fn insert(&mut self, slot: u32, key: u32, value: u32) -> u32 {
        self.expect_room(insert_reserve(self.version(slot).size()));
        let version = self.version(slot).insert(key, value);
        self.hand_out(Call::Insert, &[slot, key, value], version)
    }

    pub fn remove(&mut self, slot: u32, key: u32) -> u32 {
        self.expect_room(remove_reserve(self.version(slot).size()));
        let version = self.version(slot).remove(&key);
        self.hand_out(Call::Remove, &[slot, key], version)
    }

    pub fn size(&mut self, slot: u32) {
        let size = self.version(slot).size() as u32;
        self.record(Call::Size, &[slot], Answer::value(size));
    }

    pub fn get(&mut self, slot: u32, key: u32) {
        let value = self.version(slot).get(&key).map(|value| [*value]);
        self.record(Call::Get, &[slot, key], Answer::given(value, ABSENT));
    }

    pub fn first(&mut self, slot: u32) {
        let entry = self.version(slot).first().map(entry);
        self.record(Call::First, &[slot], Answer::given(entry, ABSENT));
    }

    pub fn last(&mut self, slot: u32) {
        let entry = self.version(slot).last().map(entry);
        self.record(Call::Last, &[slot], Answer::given(entry, ABSENT));
    }

    /// By rpds's `Ord`.
    pub fn compare(&mut self, slot: u32, other: u32) {
        let sign = match self.version(slot).cmp(self.version(other)) {
            Ordering::Less => LESS,
            Ordering::Equal => 0,
            Ordering::Greater => 1,
        };
        self.record(Call::Compare, &[slot, other], Answer::value(sign));
    }

    /// By rpds's `PartialEq`.
    pub fn equal(&mut self, slot: u32, other: u32) {
        let equal = self.version(slot) == self.version(other);
        self.record(Call::Equal, &[slot, other], Answer::truth(equal));
    }

    pub fn rescale_mark(&mut self, slot: u32) {
        let marked = self.version(slot).contains_key(&RESCALE_SLOPE);
        self.record(Call::RescaleMark, &[slot], Answer::truth(marked));
    }

    /// All entries in the order of rpds's `iter`.
    pub fn list(&mut self, slot: u32) {
        let entries = self.version(slot).iter().flat_map(entry).collect();
        self.record(Call::List, &[slot], Answer::Values(entries));
    }

    /// rpds has no slots: document 01 has the lowest one not held handed out.
    fn hand_out(&mut self, call: Call, arguments: &[u32], version: Map) -> u32 {
        let slot = self.slots.iter().position(Option::is_none).expect("a script that never meets NO_SLOT");
        self.slots[slot] = Some(version);
        self.record(call, arguments, Answer::value(slot as u32));
        slot as u32
    }

    /// Nodes in use are at most the entries of all versions held, so that the script never meets NO_ROOM.
    fn expect_room(&self, reserve: usize) {
        let used: usize = self.slots.iter().flatten().map(Map::size).sum();
        assert!(used + reserve <= NODES, "a script that never meets NO_ROOM");
    }
}

/// A key and its value.
pub fn entry((key, value): (&u32, &u32)) -> [u32; 2] {
    [*key, *value]
}
