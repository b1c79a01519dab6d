//! Where the keys of a history come from.
use crate::random::Random;

#[derive(Clone, Copy)]
pub enum Keys {
    /// Below twice the most entries: the same keys come again and again.
    Small,
    Ascending,
    Descending,
    /// Few groups with many elements each, as DICOM's tags have it.
    Groups,
    /// All 32 bits, the two ends and the middle more often than by chance.
    Full,
}

/// Both ends, and where the highest bit is set.
const LIMITS: [u32; 5] = [0, (1 << 31) - 1, 1 << 31, u32::MAX - 1, u32::MAX];

impl Keys {
    pub const ALL: [Keys; 5] = [Keys::Small, Keys::Ascending, Keys::Descending, Keys::Groups, Keys::Full];

    /// The key for a history's call of that number.
    pub fn pick(self, call: u32, most: usize, random: &mut Random) -> u32 {
        match self {
            Keys::Small => random.below(2 * most) as u32,
            Keys::Ascending => 2 * call,
            Keys::Descending => u32::MAX - 2 * call,
            Keys::Groups => group(random) * 65_536 + random.below(most) as u32,
            Keys::Full if random.one_in(12) => LIMITS[random.below(LIMITS.len())],
            Keys::Full => random.word(),
        }
    }
}

fn group(random: &mut Random) -> u32 {
    [0x0008, 0x0010, 0x0018, 0x0020, 0x0028, 0x7fe0][random.below(6)]
}
