//! What differs between two versions.
use crate::sys::{self, Difference as Row, Differences as Kept};
use crate::{Entry, Refusal, Slot};
use core::iter::FusedIterator;

const ONLY_FIRST: u32 = 1;
const ONLY_SECOND: u32 = 2;

// Where the four words that are kept between two steps have what a step changes.
const GIVEN: usize = 2;
const GIVEN_KEY: usize = 3;

/// How two versions differ at a key.
#[derive(Clone, Copy, Debug, PartialEq, Eq, Hash)]
pub enum Difference {
    /// Only the first version has the key.
    OnlyFirst(Entry),
    /// Only the second version has the key.
    OnlySecond(Entry),
    /// Both versions have the key, with different values.
    InBoth {
        /// The key, such as a [`tag`](crate::tag).
        key: u32,
        /// The value in the first version.
        first_value: u32,
        /// The value in the second version.
        second_value: u32,
    },
}

impl Difference {
    const fn of([kind, key, first_value, second_value]: Row) -> Self {
        match kind {
            ONLY_FIRST => Difference::OnlyFirst(Entry { key, value: first_value }),
            ONLY_SECOND => Difference::OnlySecond(Entry { key, value: second_value }),
            // The one kind that is left: it is proved that there is no other.
            _ => Difference::InBoth { key, first_value, second_value },
        }
    }

    /// The key at which the versions differ.
    ///
    /// ```
    /// use foamcorbel::{Difference, Entry};
    /// assert_eq!(Difference::OnlySecond(Entry { key: 5, value: 50 }).key(), 5);
    /// assert_eq!(Difference::InBoth { key: 6, first_value: 60, second_value: 61 }.key(), 6);
    /// ```
    pub const fn key(self) -> u32 {
        match self {
            Difference::OnlyFirst(entry) | Difference::OnlySecond(entry) => entry.key,
            Difference::InBoth { key, .. } => key,
        }
    }
}

/// What differs between two versions, by ascending key: see
/// [`Arena::differences`](crate::Arena::differences).
#[derive(Clone, Debug)]
pub struct Differences<'r> {
    words: &'r [u32],
    kept: Kept,
    /// The answer to the first step, which `between` has made already: each step tests the arena.
    made: Option<Result<Difference, Refusal>>,
}

impl<'r> Differences<'r> {
    /// Refused as a step would be, but that versions with no difference are no refusal here.
    pub(crate) fn between(words: &'r [u32], first: Slot, second: Slot) -> Result<Self, Refusal> {
        let start = Differences { words, kept: [first.0, second.0, 0, 0], made: None };
        match start.step() {
            made @ (Ok(_) | Err(Refusal::End)) => Ok(Differences { made: Some(made), ..start }),
            Err(refusal) => Err(refusal),
        }
    }

    fn step(&self) -> Result<Difference, Refusal> {
        let (words, len) = (self.words.as_ptr(), self.words.len());
        let mut row = [0; 4];
        // SAFETY: the words and both arrays are borrowed, and so valid for their lengths and apart.
        let result = unsafe { sys::foamcorbel_step_difference(words, len, &self.kept, &mut row) };
        Refusal::check(result, Difference::of(row))
    }
}

// The words stay borrowed, so that a refusal after `between` can only be END, and then every later
// step is END too.
impl Iterator for Differences<'_> {
    type Item = Difference;

    fn next(&mut self) -> Option<Difference> {
        let answer = self.made.take().unwrap_or_else(|| self.step());
        let difference = answer.ok()?;
        self.kept[GIVEN] = 1;
        self.kept[GIVEN_KEY] = difference.key();
        Some(difference)
    }
}

impl FusedIterator for Differences<'_> {}
