//! Why a call was refused.

/// Why a call was refused. A refused call changes no lent word.
#[derive(Clone, Copy, Debug, PartialEq, Eq, PartialOrd, Ord, Hash)]
#[repr(u32)]
pub enum Refusal {
    /// N or V is outside its limits, or the slice has not the length that they need.
    BadShape = 1,
    /// The arena is not sound.
    Unsound = 2,
    /// A named slot is V or more, or not held.
    NoVersion = 3,
    /// A range's start and end are equal and both excluded, or the start is above the end.
    BadRange = 4,
    /// The version has no such key, or is empty.
    Absent = 5,
    /// All slots are held, and the call would hand one out.
    NoSlot = 6,
    /// Fewer nodes are free than the call may need.
    NoRoom = 7,
    /// A walk has nothing left, or two versions have no difference left. A [`Range`](crate::Range)
    /// and [`Differences`](crate::Differences) end there, so no function of this crate gives it.
    End = 8,
}

impl Refusal {
    /// Its number, which the C function gives.
    pub const fn number(self) -> u32 {
        self as u32
    }

    /// What a C function's result says, the value being there already.
    pub(crate) const fn check<T: Copy>(result: u32, value: T) -> Result<T, Refusal> {
        Err(match result {
            0 => return Ok(value),
            1 => Refusal::BadShape,
            2 => Refusal::Unsound,
            3 => Refusal::NoVersion,
            4 => Refusal::BadRange,
            5 => Refusal::Absent,
            6 => Refusal::NoSlot,
            7 => Refusal::NoRoom,
            // The one number that is left: it is proved that there is no other.
            _ => Refusal::End,
        })
    }
}

impl core::fmt::Display for Refusal {
    fn fmt(&self, f: &mut core::fmt::Formatter<'_>) -> core::fmt::Result {
        f.write_str(match self {
            Refusal::BadShape => "N or V outside its limits, or the wrong length",
            Refusal::Unsound => "the arena is not sound",
            Refusal::NoVersion => "the slot is not held",
            Refusal::BadRange => "the range starts after its end",
            Refusal::Absent => "no such key",
            Refusal::NoSlot => "all slots are held",
            Refusal::NoRoom => "too few free nodes",
            Refusal::End => "nothing is left",
        })
    }
}

impl core::error::Error for Refusal {}
