//! A build of the library: the one that is linked, or that of a revision in shared objects, so that
//! two can be called in one process.
use crate::difference::{self, DifferenceStep};
use crate::options::Options;
use crate::ranges::Range;
use library::call::{Answer, Call, END, End};
use library::functions::{Functions, LINKED};
use library::lent::Lent;
use std::ffi::{CString, c_char, c_int, c_void};
use std::mem::transmute;
use std::path::{Path, PathBuf};
use std::ptr::NonNull;

unsafe extern "C" {
    fn dlopen(file: *const c_char, mode: c_int) -> *mut c_void;
    fn dlsym(object: *mut c_void, name: *const c_char) -> *mut c_void;
}

/// Every name is looked up at once.
const RTLD_NOW: c_int = 2;

/// `lookup::get` as the kit compiles it: a place for the answer, the words and how many they are,
/// the root, the key.
type Get = unsafe extern "C" fn(*mut Found, *const u32, usize, u32, u32);
/// `comparing::compare_roots`: the words and how many they are, the two roots.
type Compare = unsafe extern "C" fn(*const u32, usize, u32, u32) -> u8;
/// `ranges::step`: a place for the answer, the words and how many they are, the root, the place of
/// the range, the end.
type StepTowards = unsafe extern "C" fn(*mut Found, *const u32, usize, u32, *const Range, u8);
/// `ranges::step_front` and `step_back`, which revisions had before it.
type StepAtOneEnd = unsafe extern "C" fn(*mut Found, *const u32, usize, u32, *const Range);

/// `Option<Entry>`, and `lookup::Found` before it.
#[repr(C)]
#[derive(Default)]
struct Found {
    number: u8,
    key: u32,
    value: u32,
}

impl Found {
    fn entry(&self, options: Options) -> Option<(u32, u32)> {
        (self.number == options.number(true)).then_some((self.key, self.value))
    }
}

/// A step at one end.
#[derive(Clone, Copy)]
enum Step {
    /// `lookup::End` is front, back, from 0.
    Towards(StepTowards, u8),
    AtOneEnd(StepAtOneEnd),
}

impl Step {
    /// # Safety
    /// The words are a sound arena, and the root is a held slot's.
    unsafe fn call(self, found: &mut Found, words: &[u32], root: u32, range: &Range) {
        let (words, len) = (words.as_ptr(), words.len());
        // SAFETY: both places are as large as the kit's own; the rest is the caller's.
        unsafe {
            match self {
                Step::Towards(step, end) => step(found, words, len, root, range, end),
                Step::AtOneEnd(step) => step(found, words, len, root, range),
            }
        }
    }
}

/// The functions below the soundness test to which bench/run gave a second name; none where the
/// revision has no such function, or has it with other types.
#[derive(Default)]
struct Inner {
    get: Option<Get>,
    compare: Option<Compare>,
    step_front: Option<Step>,
    step_back: Option<Step>,
}

impl Inner {
    /// # Safety
    /// `inner` gives the places of the functions whose names the objects bear.
    unsafe fn of(inner: impl Fn(&str) -> Option<NonNull<c_void>>) -> Inner {
        // SAFETY: the caller's.
        let towards = |place| unsafe { transmute::<NonNull<c_void>, StepTowards>(place) };
        // SAFETY: the caller's.
        let at_one_end = |place| Step::AtOneEnd(unsafe { transmute::<NonNull<c_void>, StepAtOneEnd>(place) });
        let step = |end, file| match inner("step.so") {
            Some(place) => Some(Step::Towards(towards(place), end)),
            None => inner(file).map(at_one_end),
        };
        // SAFETY: the caller's.
        unsafe {
            Inner {
                get: inner("get.so").map(|place| transmute::<NonNull<c_void>, Get>(place)),
                compare: inner("compare_roots.so").map(|place| transmute::<NonNull<c_void>, Compare>(place)),
                step_front: step(0, "step_front.so"),
                step_back: step(1, "step_back.so"),
            }
        }
    }
}

pub struct Revision {
    /// What the tables call it.
    pub name: &'static str,
    /// By itself, as an earlier revision may lack it.
    pub difference: DifferenceStep,
    /// How the functions below the test pass what may be missing.
    pub options: Options,
    functions: &'static Functions,
    inner: Inner,
    /// The folder of a revision's files.
    folder: PathBuf,
}

impl Revision {
    pub fn linked() -> Revision {
        let (difference, options, inner) = (DifferenceStep::default(), Options::default(), Inner::default());
        Revision { name: "ours", difference, options, functions: &LINKED, inner, folder: PathBuf::new() }
    }

    /// The objects are never closed: their functions are called until the process ends.
    ///
    /// # Safety
    /// The folder is one that bench/run makes: the functions of its objects have the types above.
    pub unsafe fn open(name: &'static str, folder: &str) -> Revision {
        let folder = PathBuf::from(folder);
        let object = Object::open(&folder.join("library.so"));
        let step = object.find(difference::NAME);
        let place = |name: &str| match name {
            difference::NAME => step.unwrap_or_else(difference::stand_in),
            _ => object.place(name),
        };
        // SAFETY: the caller's.
        let functions = unsafe { Functions::at(place) };
        let inner = |file: &str| {
            let file = folder.join(file);
            file.exists().then(|| Object::open(&file).place("inner"))
        };
        // A revision that steps at either end by a function of its own has enums of its own, too.
        let options = if folder.join("step_front.so").exists() { Options::Own } else { Options::Std };
        // SAFETY: the caller's.
        let difference = unsafe { DifferenceStep::at(step, inner("next_difference.so"), options) };
        // SAFETY: the caller's.
        let inner = unsafe { Inner::of(inner) };
        Revision { name, difference, options, functions: Box::leak(Box::new(functions)), inner, folder }
    }

    pub fn program(&self) -> PathBuf {
        self.folder.join("program")
    }

    pub fn call(&self, lent: &mut Lent, made: Call) -> Answer {
        self.functions.call(lent.words_mut(), made)
    }

    /// The lookup below the test, of each key in turn; `see` is given the values.
    ///
    /// # Safety
    /// The words are a sound arena, and the root is a held slot's.
    pub unsafe fn descend(
        &self,
        words: &[u32],
        root: u32,
        keys: &[u32],
        mut see: impl FnMut(Option<u32>),
    ) -> Option<()> {
        let (get, mut found) = (self.inner.get?, Found::default());
        for key in keys {
            // SAFETY: the place is as large as the kit's own; the rest is the caller's.
            unsafe { get(&mut found, words.as_ptr(), words.len(), root, *key) };
            see(found.entry(self.options).map(|(_, value)| value));
        }
        Some(())
    }

    /// The comparison below the test; `see` is given what the public call answers.
    ///
    /// # Safety
    /// The words are a sound arena, and the roots are held slots'.
    pub unsafe fn compare(&self, words: &[u32], roots: (u32, u32), mut see: impl FnMut(Answer)) -> Option<()> {
        let compare = self.inner.compare?;
        // SAFETY: the caller's.
        let sign = unsafe { compare(words.as_ptr(), words.len(), roots.0, roots.1) };
        // `Ordering`, and `answers::Sign` before it, is less, equal, greater, from 0.
        see(Answer::Word(u32::from(sign).wrapping_sub(1)));
        Some(())
    }

    /// The steps below the test, one for each range; `see` is given what the public call answers.
    ///
    /// # Safety
    /// The words are a sound arena, and the root is a held slot's.
    pub unsafe fn step(
        &self,
        words: &[u32],
        root: u32,
        (end, ranges): (End, &[Range]),
        mut see: impl FnMut(Answer),
    ) -> Option<()> {
        let step = if end == End::Front { self.inner.step_front? } else { self.inner.step_back? };
        let mut found = Found::default();
        for range in ranges {
            // SAFETY: the caller's.
            unsafe { step.call(&mut found, words, root, range) };
            let entry = found.entry(self.options);
            see(entry.map_or(Answer::Refused(END), |(key, value)| Answer::Entry(key, value)));
        }
        Some(())
    }
}

/// A shared object that is open.
struct Object {
    file: PathBuf,
    handle: NonNull<c_void>,
}

impl Object {
    fn open(file: &Path) -> Object {
        let path = CString::new(file.to_str().expect("a path of characters")).expect("a path without a zero byte");
        // SAFETY: the path is a string of C's; the object has no code that runs when it is opened.
        let handle = NonNull::new(unsafe { dlopen(path.as_ptr(), RTLD_NOW) });
        let handle = handle.unwrap_or_else(|| panic!("{} cannot be opened", file.display()));
        Object { file: file.to_path_buf(), handle }
    }

    /// None where the object has no such name.
    fn find(&self, name: &str) -> Option<NonNull<c_void>> {
        let symbol = CString::new(name).expect("a name without a zero byte");
        // SAFETY: the object is open and the name is a string of C's.
        NonNull::new(unsafe { dlsym(self.handle.as_ptr(), symbol.as_ptr()) })
    }

    fn place(&self, name: &str) -> NonNull<c_void> {
        self.find(name).unwrap_or_else(|| panic!("{} has no {name}", self.file.display()))
    }
}
