//! A difference, and the difference step of a revision: its public call and the function below the
//! test, where the revision has them.
use crate::options::Options;
use std::ffi::c_void;
use std::mem::transmute;
use std::ptr::NonNull;

/// The C function, which revisions before request E1 do not have.
pub const NAME: &str = "foamcorbel_step_difference";

/// Where a function lies.
type Place = NonNull<c_void>;

/// The words and how many they are, places of what the caller keeps and for the difference.
type StepDifference = unsafe extern "C" fn(*const u32, usize, *const u32, *mut u32) -> u32;
/// `differing::next_difference`: a place for the answer, the words and how many they are, the two
/// roots, the number of the case of the last key and that key.
type NextDifference = unsafe extern "C" fn(*mut Answered, *const u32, usize, u32, u32, u8, u32);

/// The kind, the key, the value in the first version, the value in the second.
pub type Difference = [u32; 4];

/// A difference, or the number of a refusal.
pub type Stepped = Result<Difference, u32>;

const ONLY_FIRST: u32 = 1;
const ONLY_SECOND: u32 = 2;
const IN_BOTH: u32 = 3;

/// What differs where only one version has an entry, or both have one at the same key.
pub fn between(first: Option<(&u32, &u32)>, second: Option<(&u32, &u32)>) -> Difference {
    match (first, second) {
        (Some((key, value)), None) => [ONLY_FIRST, *key, *value, 0],
        (None, Some((key, value))) => [ONLY_SECOND, *key, 0, *value],
        (Some((key, one)), Some((_, other))) => [IN_BOTH, *key, *one, *other],
        (None, None) => unreachable!("a version has an entry"),
    }
}

/// `answers::Difference`: the number of its case, and one entry or two.
#[repr(C)]
#[derive(Default)]
struct Parted {
    case: u8,
    one: [u32; 2],
    other: [u32; 2],
}

/// `Result<Difference, Refusal>`, and `answers::DifferenceAnswer` before it: the first byte is 0
/// where there is a difference.
#[repr(C)]
#[derive(Default)]
struct Answered {
    refused: u8,
    refusal: u8,
    parted: Parted,
}

impl Answered {
    fn read(&self) -> Stepped {
        if self.refused != 0 {
            // The cases of `answers::Refusal` count from 0, the numbers of the refusals from 1.
            return Err(u32::from(self.refusal) + 1);
        }
        let Parted { case, one: [key, value], other: [_, second] } = self.parted;
        Ok(match case {
            0 => [ONLY_FIRST, key, value, 0],
            1 => [ONLY_SECOND, key, 0, value],
            _ => [IN_BOTH, key, value, second],
        })
    }
}

/// The functions of a revision; none where it lacks them, or has them with other types.
#[derive(Default)]
pub struct DifferenceStep {
    call: Option<StepDifference>,
    below: Option<NextDifference>,
    options: Options,
}

impl DifferenceStep {
    /// # Safety
    /// At the places stand the C function and `differing::next_difference`.
    pub unsafe fn at(call: Option<Place>, below: Option<Place>, options: Options) -> DifferenceStep {
        // SAFETY: the caller's.
        unsafe {
            DifferenceStep {
                call: call.map(|place| transmute::<Place, StepDifference>(place)),
                below: below.map(|place| transmute::<Place, NextDifference>(place)),
                options,
            }
        }
    }

    pub fn is_there(&self) -> bool {
        self.call.is_some()
    }

    /// The public call for two slots and the last key given, if any.
    pub fn call(&self, words: &[u32], slots: (u32, u32), last: Option<u32>) -> Option<Stepped> {
        let (call, mut difference) = (self.call?, Difference::default());
        let kept = [slots.0, slots.1, u32::from(last.is_some()), last.unwrap_or_default()];
        let (words, len, out) = (words.as_ptr(), words.len(), difference.as_mut_ptr());
        // SAFETY: the words are lent whole and by their length, and both places have four words.
        let refusal = unsafe { call(words, len, kept.as_ptr(), out) };
        Some(if refusal == 0 { Ok(difference) } else { Err(refusal) })
    }

    /// The steps below the test, one from each last key; `see` is given what the call answers.
    ///
    /// # Safety
    /// The words are a sound arena, and the roots are held slots'.
    pub unsafe fn below(
        &self,
        words: &[u32],
        roots: (u32, u32),
        lasts: &[Option<u32>],
        mut see: impl FnMut(Stepped),
    ) -> Option<()> {
        let (next, mut answered) = (self.below?, Answered::default());
        for last in lasts {
            let (case, key) = (self.options.number(last.is_some()), last.unwrap_or_default());
            // SAFETY: the place is as large as the kit's own; the rest is the caller's.
            unsafe { next(&mut answered, words.as_ptr(), words.len(), roots.0, roots.1, case, key) };
            see(answered.read());
        }
        Some(())
    }
}

/// Stands for the step in a table of all C functions where the revision lacks it.
pub fn stand_in() -> Place {
    NonNull::new(never_called as StepDifference as *mut c_void).expect("a function has a place")
}

unsafe extern "C" fn never_called(_: *const u32, _: usize, _: *const u32, _: *mut u32) -> u32 {
    unreachable!("the revision has no difference step")
}
