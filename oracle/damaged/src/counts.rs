//! How much was examined.
use crate::kinds::Kinds;
use std::fmt::{self, Display, Formatter};

#[derive(Default)]
pub struct Counts {
    pub arenas: u64,
    pub sound: u64,
    pub calls: u64,
    pub refused_on_sound: u64,
    pub written_on_sound: u64,
    pub formatted: u64,
    /// Difference steps by which pairs of versions of sound arenas were audited.
    pub audit_steps: u64,
    pub kinds: Kinds,
    longest: usize,
    /// How many arenas each part of the sweep had.
    parts: Vec<(&'static str, u64)>,
}

impl Counts {
    pub fn arena(&mut self, len: usize, sound: bool) {
        self.arenas += 1;
        self.sound += u64::from(sound);
        self.longest = self.longest.max(len);
    }

    /// Names the part that the arenas since the last one were of.
    pub fn part(&mut self, name: &'static str) {
        let before: u64 = self.parts.iter().map(|part| part.1).sum();
        self.parts.push((name, self.arenas - before));
    }
}

impl Display for Counts {
    fn fmt(&self, f: &mut Formatter<'_>) -> fmt::Result {
        let Counts { arenas, sound, calls, refused_on_sound, written_on_sound, .. } = self;
        let Counts { formatted, audit_steps, kinds, longest, parts, .. } = self;
        writeln!(f, "{arenas} arenas of up to {longest} words, {} of them unsound, {sound} sound", arenas - sound)?;
        let parts: Vec<String> = parts.iter().map(|(name, arenas)| format!("{arenas} {name}")).collect();
        writeln!(f, "    {}", parts.join(", "))?;
        let (rarest, unsound) = kinds.rarest();
        writeln!(f, "each kind of damage alone made {unsound} unsound arenas or more; the fewest: {rarest}")?;
        writeln!(
            f,
            "{calls} calls: on the unsound ones all gave UNSOUND and changed no word; on the sound ones {refused_on_sound}"
        )?;
        writeln!(
            f,
            "were refused and changed no word, {written_on_sound} wrote what they ought; {formatted} arenas formatted"
        )?;
        writeln!(f, "{audit_steps} difference steps audited versions of the sound ones")
    }
}
