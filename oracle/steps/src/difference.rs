//! `crates/trees/specs/Difference.antt`
use crate::listing::{ascending, first_of};
use crate::order::{compare_entries, is_same};
use crate::range::{from_start, keep, past};
use crate::tree::Entry;

/// Difference.antt: Difference
#[derive(Clone, Copy, Debug, PartialEq, Eq)]
pub enum Difference {
    OnlyFirst(Entry),
    OnlySecond(Entry),
    InBoth(Entry, Entry),
}

/// Difference.antt: differing, the head being pushed onto a result, as copying at each `∷` would
/// take too long.
fn differing_onto(result: &mut Vec<Difference>, e: Entry, f: Entry) {
    if !is_same(compare_entries(e, f)) {
        result.push(Difference::InBoth(e, f));
    }
}

/// Difference.antt: differences
pub fn differences(xs: &[Entry], ys: &[Entry]) -> Vec<Difference> {
    let mut result = Vec::new();
    differences_onto(&mut result, xs, ys);
    result
}

/// Difference.antt: differences, the heads being pushed onto a result.
fn differences_onto(result: &mut Vec<Difference>, xs: &[Entry], ys: &[Entry]) {
    match (xs, ys) {
        ([], ys) => result.extend(ys.iter().map(|f| Difference::OnlySecond(*f))),
        ([e, xs @ ..], []) => {
            result.push(Difference::OnlyFirst(*e));
            differences_onto(result, xs, ys);
        }
        ([e, xs_after @ ..], [f, ys_after @ ..]) => {
            if e.key < f.key {
                result.push(Difference::OnlyFirst(*e));
                differences_onto(result, xs_after, ys);
            } else if f.key < e.key {
                result.push(Difference::OnlySecond(*f));
                differences_onto(result, xs, ys_after);
            } else {
                differing_onto(result, *e, *f);
                differences_onto(result, xs_after, ys_after);
            }
        }
    }
}

/// Difference.antt: bearer
pub fn bearer(d: Difference) -> Entry {
    match d {
        Difference::OnlyFirst(e) => e,
        Difference::OnlySecond(f) => f,
        Difference::InBoth(e, _) => e,
    }
}

/// Difference.antt: tag
pub fn tag(d: Difference) -> u32 {
    bearer(d).key
}

/// Difference.antt: beyond
pub fn beyond(given: Option<u32>, k: u32) -> bool {
    from_start(past(given), k)
}

/// Difference.antt: keepTags
pub fn keep_tags(p: impl Fn(u32) -> bool, ds: &[Difference]) -> Vec<Difference> {
    keep(|d| p(tag(d)), ds)
}

/// Difference.antt: nextDifference
pub fn next_difference(given: Option<u32>, xs: &[Entry], ys: &[Entry]) -> Option<Difference> {
    first_of(&keep_tags(|k| beyond(given, k), &differences(xs, ys)))
}

/// Difference.antt: AscendingTags
pub fn ascending_tags(ds: &[Difference]) -> bool {
    let bearers: Vec<Entry> = ds.iter().map(|d| bearer(*d)).collect();
    ascending(&bearers)
}

/// Difference.antt: findTag
pub fn find_tag(k: u32, ds: &[Difference]) -> Option<Difference> {
    match ds {
        [] => None,
        [d, ds @ ..] => {
            if k == tag(*d) {
                Some(*d)
            } else {
                find_tag(k, ds)
            }
        }
    }
}

/// Difference.antt: differenceAt
pub fn difference_at(one: Option<Entry>, other: Option<Entry>) -> Option<Difference> {
    match (one, other) {
        (None, None) => None,
        (Some(e), None) => Some(Difference::OnlyFirst(e)),
        (None, Some(f)) => Some(Difference::OnlySecond(f)),
        (Some(e), Some(f)) => {
            if is_same(compare_entries(e, f)) {
                None
            } else {
                Some(Difference::InBoth(e, f))
            }
        }
    }
}

/// Difference.antt: Steps
pub fn steps(xs: &[Entry], ys: &[Entry], given: Option<u32>, ds: &[Difference]) -> bool {
    let next = next_difference(given, xs, ys);
    match ds {
        [] => next.is_none(),
        [d, ds @ ..] => next == Some(*d) && steps(xs, ys, Some(tag(*d)), ds),
    }
}
