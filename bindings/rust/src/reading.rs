//! The calls that read versions.
use crate::{sys, Arena, Differences, Entry, Range, Refusal, Slot};
use core::cmp::Ordering;
use core::ops::RangeBounds;

/// What the versions hold.
impl Arena<'_> {
    /// The number of entries.
    ///
    /// ```
    /// use foamcorbel::{Arena, Refusal, Slot};
    /// let mut words = [0; Arena::words_for(10, 3)];
    /// let mut arena = Arena::format(&mut words, 10, 3)?;
    /// let empty = arena.new_version()?;
    /// let one = arena.insert(empty, 5, 50)?;
    /// assert_eq!(arena.size(one), Ok(1));
    /// assert_eq!(arena.size(Slot(7)), Err(Refusal::NoVersion));
    /// # Ok::<(), Refusal>(())
    /// ```
    pub fn size(&self, slot: Slot) -> Result<u32, Refusal> {
        let mut number = 0;
        // SAFETY: the words are borrowed, and so valid for their length, and `number` is not among them.
        let result = unsafe { sys::foamcorbel_size(self.words.as_ptr(), self.words.len(), slot.0, &mut number) };
        Refusal::check(result, number)
    }

    /// The value at the key; without it, [`Refusal::Absent`].
    ///
    /// ```
    /// use foamcorbel::{Arena, Refusal};
    /// let mut words = [0; Arena::words_for(10, 3)];
    /// let mut arena = Arena::format(&mut words, 10, 3)?;
    /// let empty = arena.new_version()?;
    /// let one = arena.insert(empty, 5, 50)?;
    /// assert_eq!((arena.get(one, 5), arena.get(one, 6)), (Ok(50), Err(Refusal::Absent)));
    /// # Ok::<(), Refusal>(())
    /// ```
    pub fn get(&self, slot: Slot, key: u32) -> Result<u32, Refusal> {
        let mut value = 0;
        // SAFETY: as above.
        let result = unsafe { sys::foamcorbel_get(self.words.as_ptr(), self.words.len(), slot.0, key, &mut value) };
        Refusal::check(result, value)
    }

    /// The entry with the least key; of an empty version, [`Refusal::Absent`].
    ///
    /// ```
    /// use foamcorbel::{Arena, Entry, Refusal};
    /// let mut words = [0; Arena::words_for(10, 4)];
    /// let mut arena = Arena::format(&mut words, 10, 4)?;
    /// let empty = arena.new_version()?;
    /// let one = arena.insert(empty, 6, 60)?;
    /// let two = arena.insert(one, 5, 50)?;
    /// assert_eq!(arena.first(two), Ok(Entry { key: 5, value: 50 }));
    /// assert_eq!(arena.first(empty), Err(Refusal::Absent));
    /// # Ok::<(), Refusal>(())
    /// ```
    pub fn first(&self, slot: Slot) -> Result<Entry, Refusal> {
        let mut entry = [0; 2];
        // SAFETY: as above.
        let result = unsafe { sys::foamcorbel_first(self.words.as_ptr(), self.words.len(), slot.0, &mut entry) };
        Refusal::check(result, Entry::of(entry))
    }

    /// The entry with the greatest key; of an empty version, [`Refusal::Absent`].
    ///
    /// ```
    /// use foamcorbel::{Arena, Entry, Refusal};
    /// let mut words = [0; Arena::words_for(10, 4)];
    /// let mut arena = Arena::format(&mut words, 10, 4)?;
    /// let empty = arena.new_version()?;
    /// let one = arena.insert(empty, 6, 60)?;
    /// let two = arena.insert(one, 5, 50)?;
    /// assert_eq!(arena.last(two), Ok(Entry { key: 6, value: 60 }));
    /// # Ok::<(), Refusal>(())
    /// ```
    pub fn last(&self, slot: Slot) -> Result<Entry, Refusal> {
        let mut entry = [0; 2];
        // SAFETY: as above.
        let result = unsafe { sys::foamcorbel_last(self.words.as_ptr(), self.words.len(), slot.0, &mut entry) };
        Refusal::check(result, Entry::of(entry))
    }

    /// The entries with keys in the range, from both ends. A range that is empty is none the less a range; [`Refusal::BadRange`] is for one whose start and
    /// end are equal and both excluded, or whose start is above its end.
    ///
    /// ```
    /// use foamcorbel::{Arena, Refusal};
    /// let mut words = [0; Arena::words_for(50, 8)];
    /// let mut arena = Arena::format(&mut words, 50, 8)?;
    /// let mut slot = arena.new_version()?;
    /// for key in [3, 1, 4, 5, 9] {
    ///     slot = arena.insert(slot, key, 10 * key)?;
    /// }
    /// assert!(arena.range(slot, 3..9)?.map(|entry| entry.key).eq([3, 4, 5]));
    /// assert!(arena.range(slot, ..)?.rev().map(|entry| entry.value).eq([90, 50, 40, 30, 10]));
    ///
    /// let mut both = arena.range(slot, 4..)?;
    /// assert_eq!(both.next().map(|entry| entry.key), Some(4));
    /// assert_eq!(both.next_back().map(|entry| entry.key), Some(9));
    /// assert_eq!(both.next().map(|entry| entry.key), Some(5));
    /// assert_eq!((both.next(), both.next_back()), (None, None));
    ///
    /// assert_eq!(arena.range(slot, 6..5).err(), Some(Refusal::BadRange));
    /// # Ok::<(), Refusal>(())
    /// ```
    pub fn range(&self, slot: Slot, keys: impl RangeBounds<u32>) -> Result<Range<'_>, Refusal> {
        Range::over(self.words, slot, keys)
    }

    /// How two versions compare: by the first pair of entries that differs, key before value; a proper beginning of the other is less.
    ///
    /// ```
    /// use foamcorbel::{Arena, Refusal};
    /// use core::cmp::Ordering;
    /// let mut words = [0; Arena::words_for(10, 4)];
    /// let mut arena = Arena::format(&mut words, 10, 4)?;
    /// let empty = arena.new_version()?;
    /// let one = arena.insert(empty, 5, 50)?;
    /// let other = arena.insert(empty, 5, 49)?;
    /// assert_eq!(arena.compare(empty, one), Ok(Ordering::Less));
    /// assert_eq!(arena.compare(one, other), Ok(Ordering::Greater));
    /// # Ok::<(), Refusal>(())
    /// ```
    pub fn compare(&self, one: Slot, other: Slot) -> Result<Ordering, Refusal> {
        let mut sign = 0;
        // SAFETY: as above.
        let result =
            unsafe { sys::foamcorbel_compare(self.words.as_ptr(), self.words.len(), one.0, other.0, &mut sign) };
        Refusal::check(result, sign.cmp(&0))
    }

    /// Whether two versions have the same entries.
    ///
    /// ```
    /// use foamcorbel::{Arena, Refusal};
    /// let mut words = [0; Arena::words_for(10, 4)];
    /// let mut arena = Arena::format(&mut words, 10, 4)?;
    /// let empty = arena.new_version()?;
    /// let one = arena.insert(empty, 5, 50)?;
    /// let other = arena.insert(empty, 5, 50)?;
    /// assert_eq!((arena.equal(one, other), arena.equal(one, empty)), (Ok(true), Ok(false)));
    /// # Ok::<(), Refusal>(())
    /// ```
    pub fn equal(&self, one: Slot, other: Slot) -> Result<bool, Refusal> {
        let mut equal = 0;
        // SAFETY: as above.
        let result =
            unsafe { sys::foamcorbel_equal(self.words.as_ptr(), self.words.len(), one.0, other.0, &mut equal) };
        Refusal::check(result, equal == 1)
    }

    /// What differs between two versions, that of `first` being the first, by ascending key: the
    /// keys that only one of them has, and those that both have with different values. Each step
    /// tests the whole arena. Refused as [`Arena::compare`] is; versions that do not differ are no
    /// refusal.
    ///
    /// ```
    /// use foamcorbel::{Arena, Difference, Entry, Refusal, Slot};
    /// let mut words = [0; Arena::words_for(50, 8)];
    /// let mut arena = Arena::format(&mut words, 50, 8)?;
    /// let empty = arena.new_version()?;
    /// let one = arena.insert(empty, 5, 50)?;
    /// let received = arena.insert(one, 6, 60)?;
    /// let changed = arena.insert(received, 6, 61)?;
    /// let cut = arena.remove(changed, 5)?;
    /// let sent = arena.insert(cut, 7, 70)?;
    ///
    /// let mut differences = arena.differences(received, sent)?;
    /// assert_eq!(differences.next(), Some(Difference::OnlyFirst(Entry { key: 5, value: 50 })));
    /// let in_both = Difference::InBoth { key: 6, first_value: 60, second_value: 61 };
    /// assert_eq!(differences.next(), Some(in_both));
    /// assert_eq!(differences.next(), Some(Difference::OnlySecond(Entry { key: 7, value: 70 })));
    /// assert_eq!(differences.next(), None);
    ///
    /// assert_eq!(arena.differences(sent, sent)?.next(), None);
    /// assert_eq!(arena.differences(sent, Slot(7)).err(), Some(Refusal::NoVersion));
    /// # Ok::<(), Refusal>(())
    /// ```
    pub fn differences(&self, first: Slot, second: Slot) -> Result<Differences<'_>, Refusal> {
        Differences::between(self.words, first, second)
    }

    /// Whether the version has (0028,1053) Rescale Slope.
    ///
    /// ```
    /// use foamcorbel::{tag, Arena, Refusal};
    /// let mut words = [0; Arena::words_for(10, 3)];
    /// let mut arena = Arena::format(&mut words, 10, 3)?;
    /// let empty = arena.new_version()?;
    /// let slope = arena.insert(empty, tag(0x0028, 0x1053), 1322)?;
    /// assert_eq!((arena.rescale_mark(empty), arena.rescale_mark(slope)), (Ok(false), Ok(true)));
    /// # Ok::<(), Refusal>(())
    /// ```
    pub fn rescale_mark(&self, slot: Slot) -> Result<bool, Refusal> {
        let mut marked = 0;
        // SAFETY: as above.
        let result =
            unsafe { sys::foamcorbel_rescale_mark(self.words.as_ptr(), self.words.len(), slot.0, &mut marked) };
        Refusal::check(result, marked == 1)
    }
}
