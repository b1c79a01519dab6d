//! How a build passes inside what may be missing.

/// By which of the two cases comes first and has the number 0.
#[derive(Clone, Copy, Default)]
pub enum Options {
    /// In std's `Option`, `None` does.
    #[default]
    Std,
    /// In the enums that revisions had before it, `lookup::Found` and `ranges::LastKey`, what is
    /// there does.
    Own,
}

impl Options {
    /// The number of a case.
    pub fn number(self, is_there: bool) -> u8 {
        match self {
            Options::Std => u8::from(is_there),
            Options::Own => u8::from(!is_there),
        }
    }
}
