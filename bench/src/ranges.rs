//! What a walk keeps besides its slot, as the step below the soundness test takes it.
use crate::options::Options;
use library::call::{Bound, Walk};

/// The number of a case and the key in it: std's `Bound<u32>` and `Option<u32>`, and the enums
/// `ranges::Bound`, which had the same numbers, and `ranges::LastKey`.
#[repr(C)]
struct Case {
    number: u8,
    key: u32,
}

/// `ranges::Range`.
#[repr(C)]
pub struct Range {
    start: Case,
    end: Case,
    front: Case,
    back: Case,
}

impl Range {
    fn of(walk: &Walk, options: Options) -> Range {
        let bound = |Bound { kind, key }| Case { number: [2, 0, 1][if kind < 3 { kind as usize } else { 0 }], key };
        let last = |(given, key): (u32, u32)| Case { number: options.number(given != 0), key };
        Range { start: bound(walk.start), end: bound(walk.end), front: last(walk.front), back: last(walk.back) }
    }
}

/// The ranges of walks, with either form of the last keys: none is made while steps are timed.
pub struct Ranges {
    std: Vec<Range>,
    own: Vec<Range>,
}

impl Ranges {
    pub fn of(walks: &[Walk]) -> Ranges {
        let all = |options| walks.iter().map(|walk| Range::of(walk, options)).collect();
        Ranges { std: all(Options::Std), own: all(Options::Own) }
    }

    pub fn with(&self, options: Options) -> &[Range] {
        match options {
            Options::Std => &self.std,
            Options::Own => &self.own,
        }
    }
}
