//! One line of the list: a call, its arguments and its answer, all as numbers.
use std::fmt::{self, Display, Formatter};

/// The refusals of document 01 that rpds has too, as `None` or a panic.
pub const BAD_RANGE: u32 = 4;
pub const ABSENT: u32 = 5;
pub const END: u32 = 8;

/// The calls with their codes, those of `crates/replay/src/calling.rt`.
#[derive(Clone, Copy, Debug, PartialEq, Eq, PartialOrd, Ord)]
pub enum Call {
    /// The last line: how many lines stand above it.
    Finish = 0,
    New = 1,
    Hold = 2,
    Release = 3,
    Size = 4,
    Get = 5,
    First = 6,
    Last = 7,
    Insert = 8,
    Remove = 9,
    Compare = 10,
    Equal = 11,
    StepFront = 12,
    StepBack = 13,
    RescaleMark = 14,
    List = 15,
    StepDifference = 16,
}

/// The values of an accepted call, or the number of the refusal.
pub enum Answer {
    Values(Vec<u32>),
    Refused(u32),
}

impl Answer {
    /// What rpds gives, or the refusal that stands for its `None`.
    pub fn given<const N: usize>(values: Option<[u32; N]>, refusal: u32) -> Answer {
        values.map_or(Answer::Refused(refusal), |values| Answer::Values(values.to_vec()))
    }

    pub fn value(value: u32) -> Answer {
        Answer::Values(vec![value])
    }

    pub fn truth(yes: bool) -> Answer {
        Answer::value(u32::from(yes))
    }
}

pub struct Line {
    pub call: Call,
    arguments: Vec<u32>,
    answer: Answer,
}

impl Line {
    pub fn new(call: Call, arguments: &[u32], answer: Answer) -> Line {
        Line { call, arguments: arguments.to_vec(), answer }
    }

    /// The status, 0 or the refusal.
    pub fn status(&self) -> u32 {
        match self.answer {
            Answer::Values(_) => 0,
            Answer::Refused(refusal) => refusal,
        }
    }
}

/// LENGTH CODE ARGUMENTS.. STATUS VALUES.., where LENGTH counts the numbers that follow it.
impl Display for Line {
    fn fmt(&self, f: &mut Formatter<'_>) -> fmt::Result {
        let mut numbers = vec![self.call as u32];
        numbers.extend(&self.arguments);
        numbers.push(self.status());
        if let Answer::Values(values) = &self.answer {
            numbers.extend(values);
        }
        write!(f, "{}", numbers.len())?;
        numbers.iter().try_for_each(|number| write!(f, " {number}"))
    }
}
