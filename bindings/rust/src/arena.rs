//! The arena: making one, and the calls that hand out slots and give them up.
use crate::sys::{self, Pair};
use crate::Refusal;

/// The greatest number of nodes of an arena.
pub const MAX_NODES: u32 = 2047;

/// The greatest number of slots of an arena.
pub const MAX_SLOTS: u32 = 32;

/// The key of a tag: group × 65,536 + element. Every 32-bit number is a key.
///
/// ```
/// assert_eq!(foamcorbel::tag(0x0028, 0x1053), 2_625_619);
/// ```
pub const fn tag(group: u16, element: u16) -> u32 {
    (group as u32) << 16 | element as u32
}

/// The number of a slot. A slot that is not held may be named too: the call is then refused.
#[derive(Clone, Copy, Debug, PartialEq, Eq, PartialOrd, Ord, Hash)]
pub struct Slot(pub u32);

/// A key and the value stored at it.
#[derive(Clone, Copy, Debug, PartialEq, Eq, PartialOrd, Ord, Hash)]
pub struct Entry {
    /// The key, such as a [`tag`].
    pub key: u32,
    /// The value, such as a position in a file.
    pub value: u32,
}

impl Entry {
    pub(crate) const fn of([key, value]: Pair) -> Self {
        Entry { key, value }
    }
}

/// An arena of versions in lent words.
///
/// The words are sound when an arena is made of them, by [`format`](Arena::format) or [`open`](Arena::open), and no call spoils them, so that none of the
/// other calls is refused with [`Refusal::Unsound`].
#[derive(Debug)]
pub struct Arena<'a> {
    pub(crate) words: &'a mut [u32],
}

/// Making an arena, and what it says of itself.
impl<'a> Arena<'a> {
    /// The length of the words for `nodes` nodes and `slots` slots: 8 + 2 × slots + 6 × nodes.
    ///
    /// ```
    /// assert_eq!(foamcorbel::Arena::words_for(2047, 32), 12_354);
    /// ```
    pub const fn words_for(nodes: u32, slots: u32) -> usize {
        8 + 2 * slots as usize + 6 * nodes as usize
    }

    /// Makes the words an arena with all nodes free and no slot held. Any old contents will do.
    ///
    /// ```
    /// use foamcorbel::{Arena, Refusal};
    /// let mut words = [7; Arena::words_for(10, 3)];
    /// assert_eq!(Arena::format(&mut words, 10, 3)?.free_nodes(), Ok(10));
    /// assert_eq!(Arena::format(&mut words, 10, 4).err(), Some(Refusal::BadShape));
    /// # Ok::<(), Refusal>(())
    /// ```
    pub fn format(words: &'a mut [u32], nodes: u32, slots: u32) -> Result<Self, Refusal> {
        // SAFETY: the words are borrowed, and so valid for their length.
        let result = unsafe { sys::foamcorbel_format(words.as_mut_ptr(), words.len(), nodes, slots) };
        Refusal::check(result, ())?;
        Ok(Arena { words })
    }

    /// Takes words that were an arena before, such as those that [`into_words`](Arena::into_words) gave back, if they are sound.
    ///
    /// ```
    /// use foamcorbel::{Arena, Refusal};
    /// let mut words = [0; Arena::words_for(10, 3)];
    /// assert_eq!(Arena::open(&mut words).err(), Some(Refusal::Unsound));
    /// let slot = Arena::format(&mut words, 10, 3)?.new_version()?;
    /// assert_eq!(Arena::open(&mut words)?.size(slot), Ok(0));
    /// # Ok::<(), Refusal>(())
    /// ```
    pub fn open(words: &'a mut [u32]) -> Result<Self, Refusal> {
        let arena = Arena { words };
        if arena.is_sound() {
            Ok(arena)
        } else {
            Err(Refusal::Unsound)
        }
    }

    /// The words as they are.
    pub fn words(&self) -> &[u32] {
        self.words
    }

    /// Gives the words back.
    pub fn into_words(self) -> &'a mut [u32] {
        self.words
    }

    /// Whether the arena is sound.
    ///
    /// ```
    /// use foamcorbel::{Arena, Refusal};
    /// let mut words = [0; Arena::words_for(10, 3)];
    /// assert!(Arena::format(&mut words, 10, 3)?.is_sound());
    /// # Ok::<(), Refusal>(())
    /// ```
    pub fn is_sound(&self) -> bool {
        let mut sound = 0;
        // SAFETY: the words are borrowed, and so valid for their length, and `sound` is not among them.
        unsafe { sys::foamcorbel_sound(self.words.as_ptr(), self.words.len(), &mut sound) };
        sound == 1
    }

    /// How many nodes are free.
    ///
    /// ```
    /// use foamcorbel::{Arena, Refusal};
    /// let mut words = [0; Arena::words_for(10, 3)];
    /// let mut arena = Arena::format(&mut words, 10, 3)?;
    /// let empty = arena.new_version()?;
    /// arena.insert(empty, 5, 50)?;
    /// assert_eq!(arena.free_nodes(), Ok(9));
    /// # Ok::<(), Refusal>(())
    /// ```
    pub fn free_nodes(&self) -> Result<u32, Refusal> {
        let mut number = 0;
        // SAFETY: as above.
        let result = unsafe { sys::foamcorbel_free_nodes(self.words.as_ptr(), self.words.len(), &mut number) };
        Refusal::check(result, number)
    }
}

/// Slots and versions. A slot that is handed out is the lowest not held.
impl Arena<'_> {
    /// A slot for a new empty version.
    ///
    /// ```
    /// use foamcorbel::{Arena, Refusal, Slot};
    /// let mut words = [0; Arena::words_for(10, 1)];
    /// let mut arena = Arena::format(&mut words, 10, 1)?;
    /// assert_eq!(arena.new_version(), Ok(Slot(0)));
    /// assert_eq!(arena.new_version(), Err(Refusal::NoSlot));
    /// # Ok::<(), Refusal>(())
    /// ```
    pub fn new_version(&mut self) -> Result<Slot, Refusal> {
        let mut slot = 0;
        // SAFETY: the words are borrowed for writing, and so valid for their length, and `slot` is not among them.
        let result = unsafe { sys::foamcorbel_new_version(self.words.as_mut_ptr(), self.words.len(), &mut slot) };
        Refusal::check(result, Slot(slot))
    }

    /// A second slot for the version of a slot. The version stays until both are released.
    ///
    /// ```
    /// use foamcorbel::{Arena, Refusal};
    /// let mut words = [0; Arena::words_for(10, 3)];
    /// let mut arena = Arena::format(&mut words, 10, 3)?;
    /// let one = arena.new_version()?;
    /// let two = arena.hold(one)?;
    /// arena.release(one)?;
    /// assert_eq!(arena.size(two), Ok(0));
    /// assert_eq!(arena.hold(one), Err(Refusal::NoVersion));
    /// # Ok::<(), Refusal>(())
    /// ```
    pub fn hold(&mut self, slot: Slot) -> Result<Slot, Refusal> {
        let mut second = 0;
        // SAFETY: as above.
        let result = unsafe { sys::foamcorbel_hold(self.words.as_mut_ptr(), self.words.len(), slot.0, &mut second) };
        Refusal::check(result, Slot(second))
    }

    /// Gives up a slot. The nodes that no held slot reaches any more are free again.
    ///
    /// ```
    /// use foamcorbel::{Arena, Refusal};
    /// let mut words = [0; Arena::words_for(10, 3)];
    /// let mut arena = Arena::format(&mut words, 10, 3)?;
    /// let slot = arena.new_version()?;
    /// arena.release(slot)?;
    /// assert_eq!(arena.release(slot), Err(Refusal::NoVersion));
    /// # Ok::<(), Refusal>(())
    /// ```
    pub fn release(&mut self, slot: Slot) -> Result<(), Refusal> {
        // SAFETY: as above.
        let result = unsafe { sys::foamcorbel_release(self.words.as_mut_ptr(), self.words.len(), slot.0) };
        Refusal::check(result, ())
    }

    /// A slot for the version of a slot with the value set at the key, which may be there or not. With n entries it needs H(n) + 1 free nodes, where
    /// H(0) = 0 and H(n) = 2 × ⌊log₂(n + 1)⌋.
    ///
    /// ```
    /// use foamcorbel::{Arena, Refusal};
    /// let mut words = [0; Arena::words_for(1, 3)];
    /// let mut arena = Arena::format(&mut words, 1, 3)?;
    /// let empty = arena.new_version()?;
    /// let one = arena.insert(empty, 5, 50)?;
    /// assert_eq!((arena.size(empty), arena.size(one)), (Ok(0), Ok(1)));
    /// assert_eq!(arena.insert(one, 6, 60), Err(Refusal::NoRoom));
    /// # Ok::<(), Refusal>(())
    /// ```
    pub fn insert(&mut self, slot: Slot, key: u32, value: u32) -> Result<Slot, Refusal> {
        let mut new = 0;
        // SAFETY: as above.
        let result =
            unsafe { sys::foamcorbel_insert(self.words.as_mut_ptr(), self.words.len(), slot.0, key, value, &mut new) };
        Refusal::check(result, Slot(new))
    }

    /// A slot for the version of a slot without the key; without the key there, it is a second slot for the same version. With n entries, the key among
    /// them, it needs 6 × H(n) + 2 free nodes, otherwise none.
    ///
    /// ```
    /// use foamcorbel::{Arena, Refusal};
    /// let mut words = [0; Arena::words_for(15, 4)];
    /// let mut arena = Arena::format(&mut words, 15, 4)?;
    /// let empty = arena.new_version()?;
    /// let one = arena.insert(empty, 5, 50)?;
    /// let none = arena.remove(one, 5)?;
    /// assert_eq!((arena.get(one, 5), arena.get(none, 5)), (Ok(50), Err(Refusal::Absent)));
    /// # Ok::<(), Refusal>(())
    /// ```
    pub fn remove(&mut self, slot: Slot, key: u32) -> Result<Slot, Refusal> {
        let mut new = 0;
        // SAFETY: as above.
        let result =
            unsafe { sys::foamcorbel_remove(self.words.as_mut_ptr(), self.words.len(), slot.0, key, &mut new) };
        Refusal::check(result, Slot(new))
    }
}
