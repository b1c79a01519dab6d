//! `crates/trees/specs/Listing.antt`
use crate::tree::Entry;

/// Listing.antt: Above
pub fn above(k: u32, list: &[Entry]) -> bool {
    list.iter().all(|e| k < e.key)
}

/// Listing.antt: Below
pub fn below(k: u32, list: &[Entry]) -> bool {
    list.iter().all(|e| e.key < k)
}

/// Listing.antt: Ascending; being below the next is being below all that follow, as those ascend too, and found sooner.
pub fn ascending(list: &[Entry]) -> bool {
    match list {
        [] => true,
        [e, xs @ ..] => above(e.key, &xs[..xs.len().min(1)]) && ascending(xs),
    }
}

/// Listing.antt: find
pub fn find(k: u32, list: &[Entry]) -> Option<Entry> {
    match list {
        [] => None,
        [e, xs @ ..] => {
            if k == e.key {
                Some(*e)
            } else {
                find(k, xs)
            }
        }
    }
}

/// Listing.antt: put
pub fn put(x: Entry, list: &[Entry]) -> Vec<Entry> {
    let mut result = Vec::with_capacity(list.len() + 1);
    put_onto(&mut result, x, list);
    result
}

/// Listing.antt: put, the heads being pushed onto a result, as copying at each `∷` would take too long.
fn put_onto(result: &mut Vec<Entry>, x: Entry, list: &[Entry]) {
    match list {
        [] => result.push(x),
        [e, xs @ ..] => {
            if x.key < e.key {
                result.push(x);
                result.extend(list);
            } else if e.key < x.key {
                result.push(*e);
                put_onto(result, x, xs);
            } else {
                result.push(x);
                result.extend(xs);
            }
        }
    }
}

/// Listing.antt: cut
pub fn cut(k: u32, list: &[Entry]) -> Vec<Entry> {
    let mut result = Vec::with_capacity(list.len());
    cut_onto(&mut result, k, list);
    result
}

/// Listing.antt: cut, the heads being pushed onto a result.
fn cut_onto(result: &mut Vec<Entry>, k: u32, list: &[Entry]) {
    match list {
        [] => (),
        [e, xs @ ..] => {
            if k == e.key {
                result.extend(xs);
            } else {
                result.push(*e);
                cut_onto(result, k, xs);
            }
        }
    }
}

/// Listing.antt: firstOf
pub fn first_of<T: Copy>(list: &[T]) -> Option<T> {
    match list {
        [] => None,
        [e, ..] => Some(*e),
    }
}

/// Listing.antt: orElse
pub fn or_else(found: Option<Entry>, e: Entry) -> Option<Entry> {
    match found {
        None => Some(e),
        Some(f) => Some(f),
    }
}

/// Listing.antt: lastOf
pub fn last_of(list: &[Entry]) -> Option<Entry> {
    match list {
        [] => None,
        [e, xs @ ..] => or_else(last_of(xs), *e),
    }
}

/// Listing.antt: isSome
pub fn is_some(found: Option<Entry>) -> bool {
    match found {
        None => false,
        Some(_) => true,
    }
}
