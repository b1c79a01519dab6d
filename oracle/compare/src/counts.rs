//! How much was compared.
use crate::exhaustive::MOST;
use std::fmt::{self, Display, Formatter};

#[derive(Default)]
pub struct Counts {
    pub calls: u64,
    pub shapes: u64,
    pub shape_calls: u64,
    pub inserts_new: u64,
    pub inserts_replacing: u64,
    pub removes_present: u64,
    pub removes_absent: u64,
    pub largest: usize,
    pub nodes: u64,
    pub lookups: u64,
    pub walks: u64,
    pub range_steps: u64,
    pub bad_ranges: u64,
    pub comparisons: u64,
    pub audits: u64,
    pub differences: u64,
    pub rereadings: u64,
}

impl Display for Counts {
    fn fmt(&self, f: &mut Formatter<'_>) -> fmt::Result {
        let Counts {
            calls, shapes, shape_calls, inserts_new, inserts_replacing, removes_present, removes_absent, ..
        } = self;
        let Counts { largest, nodes, lookups, walks, range_steps, bad_ranges, comparisons, rereadings, .. } = self;
        let Counts { audits, differences, .. } = self;
        writeln!(f, "{calls} calls in histories of up to {largest} entries")?;
        writeln!(
            f,
            "{shape_calls} calls on the {shapes} shapes of up to {MOST} entries that calls reach, every call on each"
        )?;
        writeln!(f, "{inserts_new} inserts of a new key, {inserts_replacing} of a key that is there")?;
        writeln!(f, "{removes_present} removes of a key that is there, {removes_absent} of one that is not")?;
        writeln!(f, "{nodes} nodes compared: colour, entry, and fresh or shared by address")?;
        writeln!(f, "{lookups} lookups, {walks} ranges walked by {range_steps} steps, {bad_ranges} bad ranges")?;
        writeln!(f, "{comparisons} comparisons of two versions, {rereadings} held versions read again")?;
        writeln!(f, "{audits} pairs of versions audited, {differences} differences looked up")?;
        writeln!(f, "0 differences")
    }
}
