//! How much was compared.
use crate::model::Model;
use library::call::{Answer, Call, Differences, END, NAMES, NO_ROOM, NO_SLOT};
use library::outcome::{Outcome, holds, same};
use std::fmt::{self, Display, Formatter};

#[derive(Clone, Default)]
pub struct Counts {
    /// Calls of histories, and their histories.
    pub calls: u64,
    pub histories: u64,
    /// Accepted calls by kind, and refused ones by kind and number.
    accepted: [u64; NAMES.len()],
    refused: [[u64; 9]; NAMES.len()],
    pub nodes: u64,
    pub fresh: u64,
    pub largest: usize,
    pub walks: u64,
    pub steps: u64,
    pub bad_ranges: u64,
    /// Pairs of versions stepped through, and the differences that steps gave, by their kinds.
    pub audits: u64,
    given: [u64; 4],
    /// Calls after which no node was free, and after which every slot was held.
    pub no_node_free: u64,
    pub all_slots_held: u64,
    /// The most nodes of an arena that gave NO_ROOM, and the most slots of one that gave NO_SLOT.
    no_room_at: u32,
    no_slot_at: u32,
}

impl Counts {
    pub fn count(&mut self, call: Call, answer: Answer) {
        match answer {
            Answer::Refused(number) => self.refused[call.kind()][number.min(8) as usize] += 1,
            _ => self.accepted[call.kind()] += 1,
        }
        if let Answer::Difference(given) = answer {
            self.given[given.kind.min(3) as usize] += 1;
        }
    }

    /// Difference steps on two held slots, which give a difference or END.
    pub fn difference_steps(&self) -> u64 {
        let kind = Call::Difference { at: Differences::new(0, 0) }.kind();
        self.accepted[kind] + self.refused[kind][END as usize]
    }

    pub fn refused_by(&mut self, model: &Model, answer: Answer) {
        match answer {
            Answer::Refused(NO_ROOM) => self.no_room_at = self.no_room_at.max(model.n),
            Answer::Refused(NO_SLOT) => self.no_slot_at = self.no_slot_at.max(model.v()),
            _ => {}
        }
    }

    /// The histories were to fill the largest arena and all slots, to leave no node, and to meet
    /// every kind of difference.
    pub fn demand_full(&self) -> Outcome {
        same("the most nodes of an arena that gave NO_ROOM", 2047, self.no_room_at)?;
        same("the most slots of an arena that gave NO_SLOT", 32, self.no_slot_at)?;
        holds("some calls leave no node free", self.no_node_free > 0)?;
        holds("every kind of difference is given", self.given[1..].iter().all(|given| *given > 0))
    }

    pub fn fullest(&mut self, model: &Model) {
        self.no_node_free += u64::from(model.free() == 0);
        self.all_slots_held += u64::from(model.slots.iter().all(Option::is_some));
    }

    fn write_audits(&self, f: &mut Formatter<'_>) -> fmt::Result {
        let (audits, steps) = (self.audits, self.difference_steps());
        let [_, first, second, both] = self.given;
        writeln!(f, "{audits} pairs of versions audited until END was given twice")?;
        writeln!(f, "{steps} difference steps gave {first} tags only in the first version,")?;
        writeln!(f, "{second} only in the second, {both} in both, and END")
    }

    /// All calls on the library, those that only look included.
    pub fn library_calls(&self) -> u64 {
        self.accepted.iter().chain(self.refused.iter().flatten()).sum()
    }
}

impl Display for Counts {
    fn fmt(&self, f: &mut Formatter<'_>) -> fmt::Result {
        let Counts { nodes, fresh, largest, walks, steps, bad_ranges, .. } = self;
        writeln!(f, "{} calls on the library, those that look at what a call has done included", self.library_calls())?;
        for (kind, name) in NAMES.iter().enumerate() {
            write!(f, "    {name}: {} accepted", self.accepted[kind])?;
            for (number, count) in self.refused[kind].iter().enumerate().filter(|(_, count)| **count > 0) {
                write!(f, ", R {number} {count}")?;
            }
            writeln!(f)?;
        }
        writeln!(
            f,
            "{nodes} nodes of new versions compared, {fresh} of them fresh; the largest version has {largest}"
        )?;
        writeln!(f, "{walks} ranges walked by {steps} steps until both ends gave END, {bad_ranges} bad ranges")?;
        self.write_audits(f)?;
        writeln!(f, "{} calls left no node free, {} every slot held", self.no_node_free, self.all_slots_held)
    }
}
