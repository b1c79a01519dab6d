//! Arenas of all sizes, damaged in every way of damage.rs.
use crate::bases;
use crate::counts::Counts;
use crate::damage::{KINDS, Kind};
use crate::examine::Examiner;
use crate::kinds::TWO;
use crate::repair;
use common::random::Random;
use library::Subject;
use library::outcome::Outcome;

/// N, V and how often each base is damaged before the next.
const SIZES: [(u32, u32, u64); 16] = [
    (1, 1, 60),
    (1, 3, 60),
    (2, 2, 80),
    (3, 2, 120),
    (5, 4, 160),
    (8, 3, 200),
    (15, 4, 200),
    (22, 32, 200),
    (31, 8, 200),
    (60, 32, 150),
    (120, 5, 100),
    (0, 0, 200),
    (255, 3, 30),
    (300, 32, 15),
    (2047, 3, 6),
    (2047, 32, 2),
];

/// Bases of all sizes by turns, half of them planted, each damaged in one way after the other, until so many arenas differ from
/// their bases.
pub fn run<S: Subject>(examiner: &mut Examiner<S>, arenas: u64, random: &mut Random, counts: &mut Counts) -> Outcome {
    let mut made = 0;
    let mut kinds = KINDS.iter().cycle();
    while made < arenas {
        for (n, v, copies) in SIZES {
            let base = base(n, v, random);
            examiner.examine_base(&base, random, counts)?;
            for kind in kinds.by_ref().take(copies as usize) {
                made += u64::from(damaged(examiner, &base, kind, random, counts)?);
            }
        }
    }
    Ok(())
}

fn base(n: u32, v: u32, random: &mut Random) -> Vec<u32> {
    let (n, v) = if n == 0 { (1 + random.below(100) as u32, 1 + random.below(32) as u32) } else { (n, v) };
    if random.one_in(2) {
        return bases::planted(n, v, random);
    }
    let calls = random.below(3 * n.min(1000) as usize + 4);
    bases::by_calls(n, v, calls, random)
}

/// Examines the base damaged in this way, now and then in another way before. Whether it differs from its base: else it is no arena.
fn damaged<S: Subject>(
    examiner: &mut Examiner<S>,
    base: &[u32],
    kind: &Kind,
    random: &mut Random,
    counts: &mut Counts,
) -> Outcome<bool> {
    let (mut words, mut name) = (base.to_vec(), kind.0);
    if random.one_in(3) {
        (KINDS[random.below(KINDS.len())].1)(&mut words, random);
        name = TWO;
    }
    if bases::whole(&words) {
        (kind.1)(&mut words, random);
    }
    if bases::whole(&words) && random.one_in(2) {
        put_right(&mut words, random);
    }
    if words == base {
        counts.kinds.unchanged(name);
        return Ok(false);
    }
    let sound = examiner.examine(&words, random, counts).map_err(|message| format!("{}: {message}", kind.0))?;
    counts.kinds.changed(name, sound);
    Ok(true)
}

/// Counts, sizes and free list, each or all.
fn put_right(words: &mut [u32], random: &mut Random) {
    match random.below(6) {
        0 => repair::sizes(words),
        1 => repair::counts(words),
        2 => repair::free_list(words, random),
        _ => repair::all(words, random),
    }
}
