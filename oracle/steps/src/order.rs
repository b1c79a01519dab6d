//! `crates/trees/specs/Order.antt`
use crate::tree::Entry;

/// Order.antt: Sign
#[derive(Clone, Copy, Debug, PartialEq, Eq)]
pub enum Sign {
    Less,
    Same,
    More,
}

/// Order.antt: compareNumbers
pub fn compare_numbers(a: u32, b: u32) -> Sign {
    if a < b {
        Sign::Less
    } else if b < a {
        Sign::More
    } else {
        Sign::Same
    }
}

/// Order.antt: _andThen_; the second sign is worked out only where it decides.
pub fn and_then(first: Sign, second: impl FnOnce() -> Sign) -> Sign {
    match first {
        Sign::Less => Sign::Less,
        Sign::Same => second(),
        Sign::More => Sign::More,
    }
}

/// Order.antt: compareEntries
pub fn compare_entries(e: Entry, f: Entry) -> Sign {
    and_then(compare_numbers(e.key, f.key), || compare_numbers(e.value, f.value))
}

/// Order.antt: compare
pub fn compare(xs: &[Entry], ys: &[Entry]) -> Sign {
    match (xs, ys) {
        ([], []) => Sign::Same,
        ([], [_, ..]) => Sign::Less,
        ([_, ..], []) => Sign::More,
        ([e, xs @ ..], [f, ys @ ..]) => and_then(compare_entries(*e, *f), || compare(xs, ys)),
    }
}

/// Order.antt: isSame
pub fn is_same(sign: Sign) -> bool {
    match sign {
        Sign::Less => false,
        Sign::Same => true,
        Sign::More => false,
    }
}

/// Order.antt: equal
pub fn equal(xs: &[Entry], ys: &[Entry]) -> bool {
    is_same(compare(xs, ys))
}
