//! What a comparison ends with: nothing to say, or the first difference.
use std::fmt::Debug;

pub type Outcome<T = ()> = Result<T, String>;

/// Two answers to one question have to be the same.
pub fn same<T: PartialEq + Debug>(question: &str, rpds: T, definition: T) -> Outcome {
    if rpds == definition { Ok(()) } else { Err(format!("{question}: rpds {rpds:?}, the definition {definition:?}")) }
}

/// What is claimed of every tree has to hold of this one.
pub fn holds(claim: &str, truth: bool) -> Outcome {
    if truth { Ok(()) } else { Err(format!("does not hold: {claim}")) }
}
