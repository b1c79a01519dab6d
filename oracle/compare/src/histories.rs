//! Long histories: calls on versions held, old ones as well as the newest.
use crate::counts::Counts;
use crate::differences;
use crate::edits;
use crate::lookups;
use crate::orders;
use crate::outcome::Outcome;
use crate::ranges;
use crate::version::Version;
use common::keys::Keys;
use common::random::Random;
use seen::Map;
use steps::edit::Edit;
use steps::tree::Entry;

/// The most entries that a history's versions have, and how many calls it has.
const SIZES: [(usize, u64); 4] = [(7, 1600), (40, 2800), (300, 1200), (2047, 400)];

/// How many versions are held at once.
const HELD: usize = 6;

struct History {
    keys: Keys,
    most: usize,
    /// Versions are filled up to `most` entries and emptied to `least`, by turns.
    least: usize,
    filling: bool,
    call: u32,
    held: Vec<Version>,
    newest: usize,
}

/// Histories of every size by every kind of keys, as long as there are calls left.
pub fn run(calls: u64, random: &mut Random, counts: &mut Counts) -> Outcome {
    let plans = Keys::ALL.into_iter().flat_map(|keys| SIZES.map(|(most, length)| (keys, most, length)));
    let mut left = calls;
    for (keys, most, length) in plans.collect::<Vec<_>>().into_iter().cycle() {
        if left == 0 {
            break;
        }
        let length = length.min(left);
        History::start(keys, most, random).go(length, random, counts)?;
        left -= length;
    }
    counts.calls += calls;
    Ok(())
}

impl History {
    /// Large histories start nearly full, as most of their calls would be spent on filling otherwise.
    fn start(keys: Keys, most: usize, random: &mut Random) -> History {
        let least = if most > 1000 { most - 80 } else { 0 };
        let mut map = Map::new();
        let mut call = 0;
        while map.size() < least {
            map.insert_mut(keys.pick(call, most, random), call);
            call += 1;
        }
        History { keys, most, least, filling: true, call, held: vec![Version::of(map)], newest: 0 }
    }

    fn go(mut self, length: u64, random: &mut Random, counts: &mut Counts) -> Outcome {
        for _ in 0..length {
            self.call += 1;
            let parent = if random.one_in(4) { random.below(self.held.len()) } else { self.newest };
            let change = self.choose(parent, random);
            let child = edits::compare(&self.held[parent], change, counts)?;
            self.compare_answers(parent, &child, change, random, counts)?;
            self.hold(parent, child, random);
        }
        self.held.iter().try_for_each(|version| read_again(version, counts))
    }

    /// An insert or a remove of a key that is there or not.
    fn choose(&mut self, parent: usize, random: &mut Random) -> Edit {
        let parent = &self.held[parent];
        if parent.listing.len() >= self.most {
            self.filling = false;
        } else if parent.listing.len() <= self.least {
            self.filling = true;
        }
        let insert = random.one_in(5) != self.filling;
        let wanted = self.keys.pick(self.call, self.most, random);
        let full = parent.listing.len() >= self.most;
        let present = if insert { full || random.one_in(6) } else { !random.one_in(6) };
        let key = if present { self.present(parent, random).unwrap_or(wanted) } else { wanted };
        // Few different values, so that equal entries come up.
        if insert { Edit::Setting(Entry { key, value: random.below(5) as u32 }) } else { Edit::Cutting(key) }
    }

    /// A key of the version's, for ordered keys often its least or its greatest.
    fn present(&self, version: &Version, random: &mut Random) -> Option<u32> {
        let end = match self.keys {
            Keys::Ascending => version.listing.first(),
            Keys::Descending => version.listing.last(),
            _ => None,
        };
        let any = version.listing.get(random.below(version.listing.len().max(1)));
        let chosen = if random.one_in(2) { end.or(any) } else { any };
        chosen.map(|e| e.key)
    }

    fn compare_answers(
        &self,
        parent: usize,
        child: &Version,
        change: Edit,
        random: &mut Random,
        counts: &mut Counts,
    ) -> Outcome {
        let key = match change {
            Edit::Setting(x) => x.key,
            Edit::Cutting(k) => k,
        };
        lookups::compare_near(child, key, counts)?;
        lookups::compare_get(child, self.present(child, random).unwrap_or(0), counts)?;
        lookups::compare_ends(child, counts)?;
        ranges::compare_any(child, random, counts)?;
        orders::compare(child, &self.held[parent], counts)?;
        differences::compare(&self.held[parent], child, random, counts)?;
        let other = random.below(self.held.len());
        orders::compare(child, &self.held[other], counts)?;
        differences::compare(child, &self.held[other], random, counts)?;
        if random.one_in(16) {
            orders::compare_rebuilt(child, counts)?;
            read_again(&self.held[other], counts)?;
        }
        read_parent_again(&self.held[parent], random, counts)
    }

    /// Holds the new version; the parent stays held, any other may go.
    fn hold(&mut self, parent: usize, child: Version, random: &mut Random) {
        if self.held.len() < HELD {
            self.newest = self.held.len();
            self.held.push(child);
        } else {
            self.newest = (parent + 1 + random.below(HELD - 1)) % HELD;
            self.held[self.newest] = child;
        }
    }
}

/// The parent is what a wrong step would change.
fn read_parent_again(parent: &Version, random: &mut Random, counts: &mut Counts) -> Outcome {
    if parent.listing.len() <= 40 || random.one_in(16) { read_again(parent, counts) } else { Ok(()) }
}

fn read_again(version: &Version, counts: &mut Counts) -> Outcome {
    counts.rereadings += 1;
    version.unchanged()
}
