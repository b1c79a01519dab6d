//! The C functions as include/foamcorbel.h declares them, and what they answer. The only file of the oracle with unsafe code.
use crate::call::{Answer, Call, Difference, End};
use std::ffi::c_void;
use std::mem::transmute;
use std::ptr::NonNull;

/// Declares each function for the linker and as a place of the table, by which another build of the
/// library can be called too.
macro_rules! functions {
    ($(fn $name:ident($($word:ident: $kind:ty),*);)*) => {
        unsafe extern "C" {
            $(fn $name($($word: $kind),*) -> u32;)*
        }

        /// The functions of one build of the library.
        pub struct Functions {
            $($name: unsafe extern "C" fn($($word: $kind),*) -> u32,)*
        }

        /// Those that are linked.
        pub static LINKED: Functions = Functions { $($name),* };

        impl Functions {
            /// Those of a build that is opened while the program runs, by where each name lies.
            ///
            /// # Safety
            /// At the place of each name stands the function that include/foamcorbel.h so names.
            pub unsafe fn at(place: impl Fn(&str) -> NonNull<c_void>) -> Functions {
                // SAFETY: the caller's: the functions have the types of the header.
                unsafe {
                    Functions {
                        $($name: transmute::<NonNull<c_void>, unsafe extern "C" fn($($kind),*) -> u32>(
                            place(stringify!($name)),
                        ),)*
                    }
                }
            }
        }
    };
}

functions! {
    fn foamcorbel_format(words: *mut u32, len: usize, n: u32, v: u32);
    fn foamcorbel_new_version(words: *mut u32, len: usize, slot: *mut u32);
    fn foamcorbel_hold(words: *mut u32, len: usize, s: u32, slot: *mut u32);
    fn foamcorbel_release(words: *mut u32, len: usize, s: u32);
    fn foamcorbel_size(words: *const u32, len: usize, s: u32, size: *mut u32);
    fn foamcorbel_free_nodes(words: *const u32, len: usize, free_nodes: *mut u32);
    fn foamcorbel_get(words: *const u32, len: usize, s: u32, key: u32, value: *mut u32);
    fn foamcorbel_first(words: *const u32, len: usize, s: u32, entry: *mut u32);
    fn foamcorbel_last(words: *const u32, len: usize, s: u32, entry: *mut u32);
    fn foamcorbel_insert(words: *mut u32, len: usize, s: u32, key: u32, value: u32, slot: *mut u32);
    fn foamcorbel_remove(words: *mut u32, len: usize, s: u32, key: u32, slot: *mut u32);
    fn foamcorbel_compare(words: *const u32, len: usize, s: u32, t: u32, sign: *mut u32);
    fn foamcorbel_equal(words: *const u32, len: usize, s: u32, t: u32, equal: *mut u32);
    fn foamcorbel_step_front(words: *const u32, len: usize, walk: *const u32, entry: *mut u32);
    fn foamcorbel_step_back(words: *const u32, len: usize, walk: *const u32, entry: *mut u32);
    fn foamcorbel_rescale_mark(words: *const u32, len: usize, s: u32, marked: *mut u32);
    fn foamcorbel_sound(words: *const u32, len: usize, sound: *mut u32);
    fn foamcorbel_step_difference(words: *const u32, len: usize, at: *const u32, next: *mut u32);
}

/// What stands around and in the place for an answer before the call.
const PAINT: u32 = 0xfeed_face;

/// The place for an answer of up to four words, with a word before it and one behind it.
type Place = [u32; 6];

/// The words of a walk, or of an audit, that a call is lent to read.
type Kept = [u32; 9];

fn kept(call: Call) -> Kept {
    match call {
        Call::Step { walk, .. } => walk.words(),
        Call::Difference { at } => {
            let [first, second, given, key] = at.words();
            [first, second, given, key, PAINT, PAINT, PAINT, PAINT, PAINT]
        }
        _ => [PAINT; 9],
    }
}

/// How many words the answer has.
fn answer_words(call: Call) -> usize {
    match call {
        Call::Format { .. } | Call::Release { .. } => 0,
        Call::First { .. } | Call::Last { .. } | Call::Step { .. } => 2,
        Call::Difference { .. } => 4,
        _ => 1,
    }
}

impl Functions {
    /// Makes the call on the words. Every call takes pointers that may write, so that a call that
    /// ought only to read could be caught writing.
    pub fn call(&self, words: &mut [u32], call: Call) -> Answer {
        let mut place: Place = [PAINT; 6];
        let mut read_only = kept(call);
        let refusal = self.refusal(words, call, &mut place, &mut read_only);
        if read_only != kept(call) {
            return Answer::Astray;
        }
        read(refusal, answer_words(call), place)
    }

    fn refusal(&self, words: &mut [u32], call: Call, place: &mut Place, kept: &mut Kept) -> u32 {
        let (ws, len) = (words.as_mut_ptr(), words.len());
        let (out, kept) = (place[1..].as_mut_ptr(), kept.as_mut_ptr());
        // SAFETY: the words are lent whole and by their length, `out` has room for five words, more
        // than any answer has, a walk is nine words and what is kept for a difference step four;
        // nobody else has any of them while the call runs.
        unsafe {
            match call {
                Call::Format { n, v } => (self.foamcorbel_format)(ws, len, n, v),
                Call::New => (self.foamcorbel_new_version)(ws, len, out),
                Call::Hold { s } => (self.foamcorbel_hold)(ws, len, s, out),
                Call::Release { s } => (self.foamcorbel_release)(ws, len, s),
                Call::Size { s } => (self.foamcorbel_size)(ws, len, s, out),
                Call::FreeNodes => (self.foamcorbel_free_nodes)(ws, len, out),
                Call::Get { s, key } => (self.foamcorbel_get)(ws, len, s, key, out),
                Call::First { s } => (self.foamcorbel_first)(ws, len, s, out),
                Call::Last { s } => (self.foamcorbel_last)(ws, len, s, out),
                Call::Insert { s, key, value } => (self.foamcorbel_insert)(ws, len, s, key, value, out),
                Call::Remove { s, key } => (self.foamcorbel_remove)(ws, len, s, key, out),
                Call::Compare { s, t } => (self.foamcorbel_compare)(ws, len, s, t, out),
                Call::Equal { s, t } => (self.foamcorbel_equal)(ws, len, s, t, out),
                Call::Step { end: End::Front, .. } => (self.foamcorbel_step_front)(ws, len, kept, out),
                Call::Step { end: End::Back, .. } => (self.foamcorbel_step_back)(ws, len, kept, out),
                Call::RescaleMark { s } => (self.foamcorbel_rescale_mark)(ws, len, s, out),
                Call::Sound => (self.foamcorbel_sound)(ws, len, out),
                Call::Difference { .. } => (self.foamcorbel_step_difference)(ws, len, kept, out),
            }
        }
    }
}

fn read(refusal: u32, width: usize, place: Place) -> Answer {
    let written = if refusal == 0 { width } else { 0 };
    let untouched = |word: &u32| *word == PAINT;
    if !(untouched(&place[0]) && place[1 + written..].iter().all(untouched)) {
        return Answer::Astray;
    }
    match (refusal, width) {
        (0, 0) => Answer::Done,
        (0, 1) => Answer::Word(place[1]),
        (0, 2) => Answer::Entry(place[1], place[2]),
        (0, _) => Answer::Difference(difference(place)),
        _ => Answer::Refused(refusal),
    }
}

fn difference([_, kind, key, first, second, _]: Place) -> Difference {
    Difference { kind, key, first, second }
}
