//! Document 01's calls and their answers, as the C functions take and give them: by words.

pub const BAD_SHAPE: u32 = 1;
pub const UNSOUND: u32 = 2;
pub const NO_VERSION: u32 = 3;
pub const BAD_RANGE: u32 = 4;
pub const ABSENT: u32 = 5;
pub const NO_SLOT: u32 = 6;
pub const NO_ROOM: u32 = 7;
pub const END: u32 = 8;

/// The end of a walk at which a step is made.
#[derive(Clone, Copy, Debug, PartialEq, Eq)]
pub enum End {
    Front,
    Back,
}

/// A bound's kind and key. Kind 1 is included, 2 is excluded, every other is none.
#[derive(Clone, Copy, Debug, PartialEq, Eq)]
pub struct Bound {
    pub kind: u32,
    pub key: u32,
}

pub const UNBOUNDED: Bound = Bound { kind: 0, key: 0 };

/// What the caller keeps of a walk. The last keys given: the first word 0 is no, every other is yes.
#[derive(Clone, Copy, Debug, PartialEq, Eq)]
pub struct Walk {
    pub slot: u32,
    pub start: Bound,
    pub end: Bound,
    pub front: (u32, u32),
    pub back: (u32, u32),
}

impl Walk {
    pub fn new(slot: u32, start: Bound, end: Bound) -> Walk {
        Walk { slot, start, end, front: (0, 0), back: (0, 0) }
    }

    /// The walk after a step that gave this key.
    pub fn stepped(self, end: End, key: u32) -> Walk {
        match end {
            End::Front => Walk { front: (1, key), ..self },
            End::Back => Walk { back: (1, key), ..self },
        }
    }

    /// The nine words that the C functions read.
    pub fn words(&self) -> [u32; 9] {
        let Walk { slot, start, end, front, back } = *self;
        [slot, start.kind, start.key, end.kind, end.key, front.0, front.1, back.0, back.1]
    }
}

/// What the caller keeps for a difference step: the two slots, and the last key given, of which the
/// first word 0 is no and every other is yes.
#[derive(Clone, Copy, Debug, PartialEq, Eq)]
pub struct Differences {
    pub first: u32,
    pub second: u32,
    pub given: (u32, u32),
}

impl Differences {
    pub fn new(first: u32, second: u32) -> Differences {
        Differences { first, second, given: (0, 0) }
    }

    /// What is kept after a step that gave this key.
    pub fn stepped(self, key: u32) -> Differences {
        Differences { given: (1, key), ..self }
    }

    /// The four words that the C function reads.
    pub fn words(&self) -> [u32; 4] {
        [self.first, self.second, self.given.0, self.given.1]
    }
}

/// The kinds of a difference.
pub const ONLY_FIRST: u32 = 1;
pub const ONLY_SECOND: u32 = 2;
pub const IN_BOTH: u32 = 3;

/// What a difference step gives: the kind, the key and the value in each version, 0 where there is
/// none.
#[derive(Clone, Copy, Debug, PartialEq, Eq)]
pub struct Difference {
    pub kind: u32,
    pub key: u32,
    pub first: u32,
    pub second: u32,
}

#[derive(Clone, Copy, Debug, PartialEq, Eq)]
pub enum Call {
    Format { n: u32, v: u32 },
    New,
    Hold { s: u32 },
    Release { s: u32 },
    Size { s: u32 },
    FreeNodes,
    Get { s: u32, key: u32 },
    First { s: u32 },
    Last { s: u32 },
    Insert { s: u32, key: u32, value: u32 },
    Remove { s: u32, key: u32 },
    Compare { s: u32, t: u32 },
    Equal { s: u32, t: u32 },
    Step { end: End, walk: Walk },
    RescaleMark { s: u32 },
    Sound,
    Difference { at: Differences },
}

/// The eighteen C functions, in the order of `Call::kind`.
pub const NAMES: [&str; 18] = [
    "format",
    "new",
    "hold",
    "release",
    "size",
    "free nodes",
    "get",
    "first",
    "last",
    "insert",
    "remove",
    "compare",
    "equal",
    "step front",
    "step back",
    "rescale mark",
    "sound",
    "step difference",
];

impl Call {
    pub fn kind(&self) -> usize {
        match self {
            Call::Format { .. } => 0,
            Call::New => 1,
            Call::Hold { .. } => 2,
            Call::Release { .. } => 3,
            Call::Size { .. } => 4,
            Call::FreeNodes => 5,
            Call::Get { .. } => 6,
            Call::First { .. } => 7,
            Call::Last { .. } => 8,
            Call::Insert { .. } => 9,
            Call::Remove { .. } => 10,
            Call::Compare { .. } => 11,
            Call::Equal { .. } => 12,
            Call::Step { end: End::Front, .. } => 13,
            Call::Step { end: End::Back, .. } => 14,
            Call::RescaleMark { .. } => 15,
            Call::Sound => 16,
            Call::Difference { .. } => 17,
        }
    }

    /// "Format, new, hold, release, insert and remove write to the arena; no other call does."
    pub fn writes(&self) -> bool {
        matches!(
            self,
            Call::Format { .. }
                | Call::New
                | Call::Hold { .. }
                | Call::Release { .. }
                | Call::Insert { .. }
                | Call::Remove { .. }
        )
    }
}

#[derive(Clone, Copy, Debug, PartialEq, Eq)]
pub enum Answer {
    /// Format and release.
    Done,
    /// A slot, size, number, value, sign (-1 is 4,294,967,295) or truth (1 or 0).
    Word(u32),
    /// A key and its value.
    Entry(u32, u32),
    Difference(Difference),
    Refused(u32),
    /// The call wrote beside the place for its answer, or wrote there though it was refused. No call is expected to.
    Astray,
}

pub fn truth(yes: bool) -> Answer {
    Answer::Word(u32::from(yes))
}
