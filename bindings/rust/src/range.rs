//! The double-ended walk over a version's range.
use crate::sys::{self, Walk};
use crate::{Entry, Refusal, Slot};
use core::iter::FusedIterator;
use core::ops::{Bound, RangeBounds};

const UNBOUNDED: u32 = 0;
const INCLUDED: u32 = 1;
const EXCLUDED: u32 = 2;

// Where the nine words of a walk have what a step changes.
const FRONT_GIVEN: usize = 5;
const FRONT_KEY: usize = 6;
const BACK_GIVEN: usize = 7;
const BACK_KEY: usize = 8;

/// The entries of a version in a range of keys, ascending from the front and descending from the back: see [`Arena::range`](crate::Arena::range).
#[derive(Clone, Debug)]
pub struct Range<'r> {
    words: &'r [u32],
    walk: Walk,
}

fn bound(b: Bound<&u32>) -> (u32, u32) {
    match b {
        Bound::Unbounded => (UNBOUNDED, 0),
        Bound::Included(&key) => (INCLUDED, key),
        Bound::Excluded(&key) => (EXCLUDED, key),
    }
}

impl<'r> Range<'r> {
    /// Refused as a step would be, but that a walk with nothing left is no refusal here.
    pub(crate) fn over(words: &'r [u32], slot: Slot, keys: impl RangeBounds<u32>) -> Result<Self, Refusal> {
        let (start_kind, start_key) = bound(keys.start_bound());
        let (end_kind, end_key) = bound(keys.end_bound());
        let walk = [slot.0, start_kind, start_key, end_kind, end_key, 0, 0, 0, 0];
        let range = Range { words, walk };
        match range.front() {
            Ok(_) | Err(Refusal::End) => Ok(range),
            Err(refusal) => Err(refusal),
        }
    }

    fn front(&self) -> Result<Entry, Refusal> {
        let mut entry = [0; 2];
        // SAFETY: the words and both arrays are borrowed, and so valid for their lengths and apart.
        let result =
            unsafe { sys::foamcorbel_step_front(self.words.as_ptr(), self.words.len(), &self.walk, &mut entry) };
        Refusal::check(result, Entry::of(entry))
    }

    fn back(&self) -> Result<Entry, Refusal> {
        let mut entry = [0; 2];
        // SAFETY: as above.
        let result =
            unsafe { sys::foamcorbel_step_back(self.words.as_ptr(), self.words.len(), &self.walk, &mut entry) };
        Refusal::check(result, Entry::of(entry))
    }
}

// The words stay borrowed, so that a refusal after `over` can only be END, and then every later step is END too.
impl Iterator for Range<'_> {
    type Item = Entry;

    fn next(&mut self) -> Option<Entry> {
        let entry = self.front().ok()?;
        self.walk[FRONT_GIVEN] = 1;
        self.walk[FRONT_KEY] = entry.key;
        Some(entry)
    }
}

impl DoubleEndedIterator for Range<'_> {
    fn next_back(&mut self) -> Option<Entry> {
        let entry = self.back().ok()?;
        self.walk[BACK_GIVEN] = 1;
        self.walk[BACK_KEY] = entry.key;
        Some(entry)
    }
}

impl FusedIterator for Range<'_> {}
