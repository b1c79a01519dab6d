//! What differs between two of rpds's maps. rpds has no such function: its iterators are merged,
//! and its lookups give a second opinion.
use library::call::{Answer, Difference, Differences, IN_BOTH, ONLY_FIRST, ONLY_SECOND};
use library::outcome::{Outcome, holds, same};
use seen::Map;
use std::cmp::Ordering;
use std::iter;

/// The entries that two maps have at one tag.
type Both = (Option<(u32, u32)>, Option<(u32, u32)>);

/// The first difference above the last key given, if any.
pub fn next(first: &Map, second: &Map, at: &Differences) -> Option<Difference> {
    differences(first, second).find(|d| above(at, d.key))
}

/// Every tag at which the maps differ, by rising tag.
pub fn differences(first: &Map, second: &Map) -> impl Iterator<Item = Difference> {
    merged(first, second).filter(|(one, other)| one != other).map(difference)
}

/// Every tag that one of the maps has, by rising tag.
fn merged(first: &Map, second: &Map) -> impl Iterator<Item = Both> {
    let owned = |(key, value): (&u32, &u32)| (*key, *value);
    let mut ones = first.iter().map(owned).peekable();
    let mut others = second.iter().map(owned).peekable();
    iter::from_fn(move || {
        let order = match (ones.peek(), others.peek()) {
            (None, None) => return None,
            (Some(_), None) => Ordering::Less,
            (None, Some(_)) => Ordering::Greater,
            (Some(one), Some(other)) => one.0.cmp(&other.0),
        };
        let one = if order.is_le() { ones.next() } else { None };
        let other = if order.is_ge() { others.next() } else { None };
        Some((one, other))
    })
}

fn difference(entries: Both) -> Difference {
    let (kind, key, first, second) = match entries {
        (Some((key, first)), None) => (ONLY_FIRST, key, first, 0),
        (None, Some((key, second))) => (ONLY_SECOND, key, 0, second),
        (Some((key, first)), Some((_, second))) => (IN_BOTH, key, first, second),
        (None, None) => unreachable!("a tag is in one of the maps"),
    };
    Difference { kind, key, first, second }
}

fn above(at: &Differences, key: u32) -> bool {
    at.given.0 == 0 || key > at.given.1
}

/// The second opinion on an answer: by `get` no tag that is passed over differs, and the tag that
/// is given differs as the answer says.
pub fn compare_lookups(first: &Map, second: &Map, at: &Differences, found: Answer) -> Outcome {
    let given = if let Answer::Difference(given) = found { Some(given) } else { None };
    let passed = |key: u32| above(at, key) && given.is_none_or(|given| key < given.key);
    let mut passed_over = first.keys().chain(second.keys()).filter(|key| passed(**key));
    let alike = passed_over.all(|key| first.get(key) == second.get(key));
    holds("no tag that is passed over differs, by get", alike)?;
    given.map_or(Ok(()), |given| compare_given(first, second, at, given))
}

fn compare_given(first: &Map, second: &Map, at: &Differences, given: Difference) -> Outcome {
    holds("the tag that is given is above the last key", above(at, given.key))?;
    let (one, other) = (first.get(&given.key).copied(), second.get(&given.key).copied());
    holds("the tag that is given differs, by get", one != other)?;
    // Being in the first counts 1 and being in the second 2.
    let kind = u32::from(one.is_some()) + 2 * u32::from(other.is_some());
    let expected = [kind, one.unwrap_or(0), other.unwrap_or(0)];
    same("kind and values, by get", expected, [given.kind, given.first, given.second])
}
