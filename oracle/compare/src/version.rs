//! A version that is held: rpds's map, and what was read of it when it was new.
use crate::outcome::{Outcome, same};
use seen::{Map, Numbers, Seen};
use steps::tree::{Entry, Tree};

pub struct Version {
    pub map: Map,
    pub seen: Seen,
    /// The nodes' numbers by address: as long as the map is held, no other node can come to stand there.
    pub numbers: Numbers,
    /// The plain tree, every node kept, by its number.
    pub tree: Tree,
    pub listing: Vec<Entry>,
}

impl Version {
    pub fn of(map: Map) -> Version {
        let seen = Seen::of(&map);
        let numbers = seen.numbers();
        let tree = seen.tree(&numbers);
        let listing = map.iter().map(entry).collect();
        Version { map, seen, numbers, tree, listing }
    }

    /// "Recolouring a shared child in place: the received version changes": read again, it is what it was.
    pub fn unchanged(&self) -> Outcome {
        same("a held version read again, against when it was new", &Seen::of(&self.map), &self.seen)
    }

    pub fn keys(&self) -> Vec<u32> {
        self.listing.iter().map(|e| e.key).collect()
    }
}

/// rpds's pair as an entry.
pub fn entry((key, value): (&u32, &u32)) -> Entry {
    Entry { key: *key, value: *value }
}
