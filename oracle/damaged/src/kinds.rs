//! What each kind of damage came to: whether it changed words, and whether the arena was unsound after it.
use crate::damage::{KINDS, keeps_sound};
use library::outcome::Outcome;
use std::collections::BTreeMap;
use std::fmt::{self, Display, Formatter};

/// Damage of one kind after damage of another, which tells nothing of either.
pub const TWO: &str = "two kinds, one after the other";

#[derive(Clone, Copy, Default)]
struct Tally {
    made: u64,
    changed: u64,
    unsound: u64,
}

#[derive(Default)]
pub struct Kinds {
    tallies: BTreeMap<&'static str, Tally>,
}

impl Kinds {
    /// An arena that is its base once more.
    pub fn unchanged(&mut self, kind: &'static str) {
        self.tallies.entry(kind).or_default().made += 1;
    }

    pub fn changed(&mut self, kind: &'static str, sound: bool) {
        assert!(sound || !keeps_sound(kind), "{kind}: the arena is unsound");
        let tally = self.tallies.entry(kind).or_default();
        tally.made += 1;
        tally.changed += 1;
        tally.unsound += u64::from(!sound);
    }

    /// How often each kind that has to spoil an arena did so.
    fn spoilt(&self) -> impl Iterator<Item = (&'static str, u64)> {
        let names = KINDS.iter().map(|kind| kind.0).filter(|name| !keeps_sound(name));
        names.map(|name| (name, self.tallies.get(name).map_or(0, |tally| tally.unsound)))
    }

    /// Damage that never shows would be no test.
    pub fn each_spoils(&self) -> Outcome {
        let idle: Vec<&str> = self.spoilt().filter(|kind| kind.1 == 0).map(|kind| kind.0).collect();
        if idle.is_empty() { Ok(()) } else { Err(format!("kinds of damage that made no unsound arena: {idle:?}")) }
    }

    /// The kind that made the fewest unsound arenas, and how many.
    pub fn rarest(&self) -> (&'static str, u64) {
        self.spoilt().min_by_key(|kind| kind.1).expect("there are kinds")
    }
}

impl Display for Kinds {
    fn fmt(&self, f: &mut Formatter<'_>) -> fmt::Result {
        writeln!(f, "   made changed unsound")?;
        for name in KINDS.iter().map(|kind| kind.0).chain([TWO]) {
            let Tally { made, changed, unsound } = self.tallies.get(name).copied().unwrap_or_default();
            writeln!(f, "{made:7} {changed:7} {unsound:7}  {name}")?;
        }
        Ok(())
    }
}
