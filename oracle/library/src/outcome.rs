//! What a comparison ends with: nothing to say, or the first difference.
use std::fmt::Debug;

pub type Outcome<T = ()> = Result<T, String>;

/// What was found has to be what was expected.
pub fn same<T: PartialEq + Debug>(question: &str, expected: T, found: T) -> Outcome {
    if expected == found { Ok(()) } else { Err(format!("{question}: expected {expected:?}, found {found:?}")) }
}

pub fn holds(claim: &str, truth: bool) -> Outcome {
    if truth { Ok(()) } else { Err(format!("does not hold: {claim}")) }
}
