//! The proved library, called through its C functions, on words that are watched from outside.

pub mod call;
pub mod functions;
pub mod layout;
pub mod lent;
pub mod outcome;

use call::{Answer, Call};
use functions::LINKED;
use lent::Lent;

/// What answers the calls: the library, or the library with a fault put in to see that it is found.
pub trait Subject {
    fn call(&mut self, lent: &mut Lent, call: Call) -> Answer;
}

/// The proved library as it is.
#[derive(Clone)]
pub struct Library;

impl Subject for Library {
    fn call(&mut self, lent: &mut Lent, call: Call) -> Answer {
        LINKED.call(lent.words_mut(), call)
    }
}
