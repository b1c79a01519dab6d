//! The C functions, as include/foamcorbel.h declares them. Nothing checks these lines against the archive but the tests.

/// A walk as nine words: slot; kind and key of the start, then of the end; at the front, then at the back, whether a key was given, and which.
pub(crate) type Walk = [u32; 9];

/// An entry as two words: its key, then its value.
pub(crate) type Pair = [u32; 2];

/// What is kept between difference steps as four words: the first slot; the second slot; whether a
/// key was given, and which.
pub(crate) type Differences = [u32; 4];

/// A difference as four words: its kind; its key; the value in the first version; in the second.
pub(crate) type Difference = [u32; 4];

extern "C" {
    pub(crate) fn foamcorbel_format(words: *mut u32, len: usize, n: u32, v: u32) -> u32;
    pub(crate) fn foamcorbel_new_version(words: *mut u32, len: usize, slot: &mut u32) -> u32;
    pub(crate) fn foamcorbel_hold(words: *mut u32, len: usize, s: u32, slot: &mut u32) -> u32;
    pub(crate) fn foamcorbel_release(words: *mut u32, len: usize, s: u32) -> u32;
    pub(crate) fn foamcorbel_size(words: *const u32, len: usize, s: u32, size: &mut u32) -> u32;
    pub(crate) fn foamcorbel_free_nodes(words: *const u32, len: usize, free_nodes: &mut u32) -> u32;
    pub(crate) fn foamcorbel_get(words: *const u32, len: usize, s: u32, key: u32, value: &mut u32) -> u32;
    pub(crate) fn foamcorbel_first(words: *const u32, len: usize, s: u32, entry: &mut Pair) -> u32;
    pub(crate) fn foamcorbel_last(words: *const u32, len: usize, s: u32, entry: &mut Pair) -> u32;
    pub(crate) fn foamcorbel_insert(words: *mut u32, len: usize, s: u32, key: u32, value: u32, slot: &mut u32) -> u32;
    pub(crate) fn foamcorbel_remove(words: *mut u32, len: usize, s: u32, key: u32, slot: &mut u32) -> u32;
    pub(crate) fn foamcorbel_compare(words: *const u32, len: usize, s: u32, t: u32, sign: &mut i32) -> u32;
    pub(crate) fn foamcorbel_equal(words: *const u32, len: usize, s: u32, t: u32, equal: &mut u32) -> u32;
    pub(crate) fn foamcorbel_step_front(words: *const u32, len: usize, walk: &Walk, entry: &mut Pair) -> u32;
    pub(crate) fn foamcorbel_step_back(words: *const u32, len: usize, walk: &Walk, entry: &mut Pair) -> u32;
    pub(crate) fn foamcorbel_step_difference(
        words: *const u32,
        len: usize,
        at: &Differences,
        difference: &mut Difference,
    ) -> u32;
    pub(crate) fn foamcorbel_rescale_mark(words: *const u32, len: usize, s: u32, marked: &mut u32) -> u32;
    pub(crate) fn foamcorbel_sound(words: *const u32, len: usize, sound: &mut u32) -> u32;
}
