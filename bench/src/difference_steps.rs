//! Difference steps above their soundness test.
use crate::above::{self, Questions, Row};
use crate::difference::Stepped;
use crate::pair::Pair;
use crate::revision::Revision;
use crate::shown::{number, ratio};
use library::call::END;
use library::lent::Lent;
use std::ops::Range;

/// At most so many steps of an audit are timed.
const MOST: usize = 64;

/// Steps of an audit: from which last keys they go on, and what they answer.
struct Steps<'a> {
    pair: &'a Pair,
    lasts: Vec<Option<u32>>,
    right: Vec<Stepped>,
}

impl Steps<'_> {
    /// The steps at these places of the audit.
    fn at(pair: &Pair, places: impl Iterator<Item = usize> + Clone) -> Steps<'_> {
        let differences = &pair.differences;
        let last = |place: usize| Some(differences[place.checked_sub(1)?][1]);
        let answer = |place: usize| differences.get(place).copied().ok_or(END);
        let lasts = places.clone().map(last).collect();
        Steps { pair, lasts, right: places.map(answer).collect() }
    }
}

impl Questions for Steps<'_> {
    type Answer = Stepped;

    fn count(&self) -> usize {
        self.lasts.len()
    }

    fn call(&self, revision: &Revision, lent: &mut Lent, question: usize) -> Option<Stepped> {
        revision.difference.call(lent.words(), self.pair.slots, self.lasts[question])
    }

    fn below(
        &self,
        revision: &Revision,
        words: &[u32],
        which: Range<usize>,
        see: impl FnMut(Self::Answer),
    ) -> Option<()> {
        // SAFETY: calls made the arena and none was refused, and the roots are those of its slots.
        unsafe { revision.difference.below(words, self.pair.roots, &self.lasts[which], see) }
    }

    /// rpds has no such step.
    fn rpds(&self, _: Range<usize>, _: impl FnMut(Stepped)) -> Option<()> {
        None
    }

    fn right(&self) -> Vec<Stepped> {
        self.right.clone()
    }
}

pub fn table(revisions: &[Revision], pairs: &[Pair]) {
    println!("\n## A difference step above its soundness test\n");
    let head = |revision: &Revision| format!(" {} ns |", revision.name);
    let ours: String = revisions.iter().map(head).collect();
    println!("| versions | steps | timed |{ours} now to before |");
    println!("|---|---|---|{}---|", "---|".repeat(revisions.len()));
    pairs.iter().for_each(|pair| print_steps(revisions, pair));
}

/// A single difference and END have rows of their own, the steps of a longer audit the same rows.
fn print_steps(revisions: &[Revision], pair: &Pair) {
    let (steps, most) = (pair.steps(), pair.steps().min(MOST));
    if steps == 2 {
        print(revisions, "the difference", &Steps::at(pair, 0..1));
        print(revisions, "END", &Steps::at(pair, 1..2));
    } else {
        let spread = Steps::at(pair, (1..=most).map(|i| i * steps / most - 1));
        print(revisions, &format!("{most} of {steps}"), &spread);
    }
}

fn print(revisions: &[Revision], which: &str, steps: &Steps) {
    let name = steps.pair.name;
    for Row { way, ours, .. } in above::rows(steps, revisions, &mut steps.pair.lent.clone()) {
        let cells: Vec<String> = ours.iter().map(|nanos| number(*nanos, 0)).collect();
        let change = ratio(ours[ours.len() - 1], ours[0]);
        println!("| {name} | {which} | {way} | {} | {change} |", cells.join(" | "));
    }
}
