//! Whole audits: difference steps until END, beside as many soundness tests and rpds's iterators.
use crate::pair::{Pair, merge};
use crate::revision::Revision;
use crate::shown::{number, ratio};
use crate::timing::{by_turns, median, nanos, rounds, see, time, time_if};
use library::call::Call;
use std::hint::black_box;
use std::time::Duration;

/// How often the rounds are made.
const PASSES: usize = 4;

/// Those who are timed on a pair: each revision's audit, then the present one's tests, then rpds.
struct Contest<'a> {
    pair: &'a mut Pair,
    revisions: &'a [Revision],
}

impl Contest<'_> {
    fn contenders(&self) -> usize {
        self.revisions.len() + 2
    }

    /// The time of one. A test or, for rpds, the same work runs before it, so that none comes right
    /// after another's code.
    fn time_of(&mut self, contender: usize) -> Option<Duration> {
        let (steps, now) = (self.pair.steps(), &self.revisions[self.revisions.len() - 1]);
        if let Some(revision) = self.revisions.get(contender) {
            self.test(revision);
            return time_if(|| black_box(&*self.pair).audit(revision, see).map(see));
        }
        if contender == self.revisions.len() {
            self.test(now);
            return Some(time(|| (0..steps).for_each(|_| self.test(now))));
        }
        let (one, other) = &self.pair.maps;
        merge(black_box(one), black_box(other), see);
        Some(time(|| merge(black_box(one), black_box(other), see)))
    }

    fn test(&mut self, revision: &Revision) {
        see(revision.call(black_box(&mut self.pair.lent), Call::Sound));
    }

    /// The nanoseconds of every round, by contender.
    fn all_times(&mut self) -> Vec<Vec<f64>> {
        let mut times = vec![Vec::new(); self.contenders()];
        for _ in 0..PASSES {
            rounds(|round| {
                for contender in by_turns(round, self.contenders()) {
                    times[contender].extend(self.time_of(contender).map(nanos));
                }
            });
        }
        times
    }
}

pub fn table(revisions: &[Revision], pairs: &mut [Pair]) {
    println!("\n## An audit, difference steps until END\n");
    let head = |revision: &Revision| format!(" {} µs |", revision.name);
    let ours: String = revisions.iter().map(head).collect();
    print!("| versions | steps | timed |{ours} now to before |");
    println!(" as many tests µs | now to tests | rpds's iterators µs | now to rpds |");
    println!("|---|---|---|{}---|---|---|---|---|", "---|".repeat(revisions.len()));
    for pair in pairs {
        let times = Contest { pair, revisions }.all_times();
        let least = |times: &Vec<f64>| times.iter().copied().reduce(f64::min);
        print(pair, "the least", &times.iter().map(least).collect::<Vec<_>>());
        print(pair, "the median", &times.into_iter().map(median).collect::<Vec<_>>());
    }
}

/// The times are those of the revisions, of the tests and of rpds.
fn print(pair: &Pair, timed: &str, times: &[Option<f64>]) {
    let [ours @ .., tests, rpds] = times else { unreachable!("tests and rpds are timed") };
    let micros = |nanos: &Option<f64>| number(nanos.map(|nanos| nanos / 1000.0), 1);
    let cells: Vec<String> = ours.iter().map(micros).collect();
    let now = ours[ours.len() - 1];
    print!("| {} | {} | {timed} | {} |", pair.name, pair.steps(), cells.join(" | "));
    print!(" {} | {} | {} |", ratio(now, ours[0]), micros(tests), ratio(now, *tests));
    println!(" {} | {} |", micros(rpds), ratio(now, *rpds));
}
