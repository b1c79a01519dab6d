//! Which arenas are examined.
use crate::bases;
use crate::counts::Counts;
use crate::damages;
use crate::examine::Examiner;
use common::random::Random;
use library::Subject;
use library::lent::arena_len;
use library::outcome::Outcome;

/// How much is examined.
pub struct Extent {
    /// N, V, calls of the history, and of how many words one has its bits flipped.
    pub flips: &'static [(u32, u32, usize, usize)],
    /// Arenas made by damage, and of random words.
    pub damaged: u64,
    pub random: u64,
    /// Whether they are so many that every kind of damage has to show.
    pub every_kind: bool,
}

pub fn run<S: Subject>(
    examiner: &mut Examiner<S>,
    extent: &Extent,
    random: &mut Random,
    counts: &mut Counts,
) -> Outcome {
    shapes(examiner, random, counts)?;
    counts.part("with N, V or length at and beyond the limits");
    for (n, v, calls, stride) in extent.flips {
        let words = bases::by_calls(*n, *v, *calls, random);
        flips(examiner, &words, *stride, random, counts)?;
    }
    counts.part("with one bit flipped");
    damages::run(examiner, extent.damaged, random, counts)?;
    counts.part("damaged in the ways of damage.rs");
    (0..extent.random).try_for_each(|_| examiner.examine(&random_words(random), random, counts).map(drop))?;
    counts.part("of random words");
    Ok(())
}

/// Whole arenas with N and V inside and beyond their limits, and lengths that fit or do not.
fn shapes<S: Subject>(examiner: &mut Examiner<S>, random: &mut Random, counts: &mut Counts) -> Outcome {
    for n in [0, 1, 2, 3, 40, 2046, 2047, 2048, 2049] {
        for v in [0, 1, 2, 31, 32, 33, 34, 64] {
            let words = bases::planted(n, v, random);
            if bases::whole(&words) {
                examiner.examine_base(&words, random, counts)?;
            } else {
                examiner.examine(&words, random, counts)?;
            }
            examiner.examine(&words[..words.len() - 1], random, counts)?;
            examiner.examine(&[&words[..], &[0]].concat(), random, counts)?;
        }
    }
    for len in 0..20 {
        examiner.examine(&vec![random.word(); len], random, counts)?;
    }
    examiner.examine(&[1; 16], random, counts).map(drop)
}

/// Every bit of every word flipped, or of one word in `stride`.
fn flips<S: Subject>(
    examiner: &mut Examiner<S>,
    words: &[u32],
    stride: usize,
    random: &mut Random,
    counts: &mut Counts,
) -> Outcome {
    examiner.examine_base(words, random, counts)?;
    let mut flipped = words.to_vec();
    for at in (0..words.len()).step_by(stride) {
        for bit in 0..32 {
            flipped[at] ^= 1 << bit;
            examiner.examine(&flipped, random, counts)?;
            flipped[at] = words[at];
        }
    }
    Ok(())
}

/// Random words: of any length, with N and V that fit, or small enough to be links. Most arenas are small, where chance finds more.
fn random_words(random: &mut Random) -> Vec<u32> {
    let (most_nodes, most_slots) = if random.one_in(8) { (2047, 32) } else { (12, 4) };
    let (n, v) = (1 + random.below(most_nodes) as u32, 1 + random.below(most_slots) as u32);
    let small = [4, n + 2, 40, u32::MAX][random.below(4)];
    let len = if random.one_in(4) { random.below(120) } else { arena_len(n, v) };
    let mut words: Vec<u32> = (0..len).map(|_| random.word() % small).collect();
    if len > 2 && !random.one_in(8) {
        words[..2].copy_from_slice(&[n, v]);
    }
    words
}
