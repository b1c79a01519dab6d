//! `crates/trees/specs/Range.antt`
use crate::listing::{first_of, last_of};
use crate::tree::Entry;

/// Range.antt: Bound
#[derive(Clone, Copy, Debug, PartialEq, Eq)]
pub enum Bound {
    Included(u32),
    Excluded(u32),
    Unbounded,
}

/// Range.antt: End
#[derive(Clone, Copy, Debug, PartialEq, Eq)]
pub enum End {
    Front,
    Back,
}

/// Range.antt: Range
#[derive(Clone, Copy, Debug, PartialEq, Eq)]
pub struct Range {
    pub start: Bound,
    pub end: Bound,
    pub given_front: Option<u32>,
    pub given_back: Option<u32>,
}

/// Range.antt: fromStart
pub fn from_start(start: Bound, k: u32) -> bool {
    match start {
        Bound::Included(a) => a <= k,
        Bound::Excluded(a) => a < k,
        Bound::Unbounded => true,
    }
}

/// Range.antt: toEnd
pub fn to_end(end: Bound, k: u32) -> bool {
    match end {
        Bound::Included(b) => k <= b,
        Bound::Excluded(b) => k < b,
        Bound::Unbounded => true,
    }
}

/// Range.antt: past
pub fn past(given: Option<u32>) -> Bound {
    match given {
        None => Bound::Unbounded,
        Some(a) => Bound::Excluded(a),
    }
}

/// Range.antt: afterFront
pub fn after_front(w: &Range, k: u32) -> bool {
    from_start(w.start, k) && from_start(past(w.given_front), k)
}

/// Range.antt: beforeBack
pub fn before_back(w: &Range, k: u32) -> bool {
    to_end(w.end, k) && to_end(past(w.given_back), k)
}

/// Range.antt: remains
pub fn remains(w: &Range, e: Entry) -> bool {
    after_front(w, e.key) && before_back(w, e.key)
}

/// Range.antt: keep
pub fn keep<T: Copy>(p: impl Fn(T) -> bool, list: &[T]) -> Vec<T> {
    list.iter().copied().filter(|e| p(*e)).collect()
}

/// Range.antt: next
pub fn next(end: End, w: &Range, list: &[Entry]) -> Option<Entry> {
    match end {
        End::Front => first_of(&keep(|e| remains(w, e), list)),
        End::Back => last_of(&keep(|e| remains(w, e), list)),
    }
}

/// Range.antt: stepped
pub fn stepped(end: End, w: &Range, e: Entry) -> Range {
    match end {
        End::Front => Range { start: w.start, end: w.end, given_front: Some(e.key), given_back: w.given_back },
        End::Back => Range { start: w.start, end: w.end, given_front: w.given_front, given_back: Some(e.key) },
    }
}

/// Range.antt: badRange
pub fn bad_range(start: Bound, end: Bound) -> bool {
    match (start, end) {
        (Bound::Unbounded, _) => false,
        (Bound::Included(_), Bound::Unbounded) => false,
        (Bound::Included(a), Bound::Included(b)) => b < a,
        (Bound::Included(a), Bound::Excluded(b)) => b < a,
        (Bound::Excluded(_), Bound::Unbounded) => false,
        (Bound::Excluded(a), Bound::Included(b)) => b < a,
        (Bound::Excluded(a), Bound::Excluded(b)) => b <= a,
    }
}
