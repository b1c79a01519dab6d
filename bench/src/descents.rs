//! get at two revisions of the library, and rpds's own beside them.
use crate::arena::{Arena, Map, Plan};
use crate::revision::Revision;
use crate::shown::{number, ratio};
use crate::timing::{by_turns, least_of_passes, least_times, least_times_if, middle_mean, nanos, see, time, time_if};
use common::random::Random;
use library::call::{ABSENT, Answer, Call, truth};
use library::layout::slot;
use std::hint::black_box;

const SIZES: [usize; 4] = [16, 128, 1024, 1900];

/// How often everything is measured.
const PASSES: usize = 4;

/// So few keys, in one order over and over, that the processor learns every turn of their descents.
const FEW: usize = 64;

/// More than it can learn.
const MANY: usize = 8192;

/// How often each of the few keys is asked for right after a soundness test.
const AFTER_A_TEST: usize = 100;

/// Keys that are asked for, and whether they are there.
struct Asked {
    name: &'static str,
    keys: Vec<u32>,
    there: bool,
}

/// A version of so many entries in the largest arena, and what is asked of it.
struct Case {
    arena: Arena,
    root: u32,
    asked: [Asked; 3],
}

impl Case {
    fn new(entries: usize) -> Case {
        let arena = Arena::new(Plan { n: 2047, v: 32, entries, versions: 1 }, 0);
        let (root, _) = slot(arena.lent.words(), arena.newest());
        let mut random = Random::new(1);
        let present: Vec<u32> = (0..MANY).map(|_| arena.keys[random.below(entries)]).collect();
        let absent: Vec<u32> = present.iter().map(|key| key.wrapping_add(1)).collect();
        let asked = [
            Asked { name: "the same 64", keys: arena.some_keys(FEW), there: true },
            Asked { name: "any", keys: present, there: true },
            Asked { name: "any that is absent", keys: absent, there: false },
        ];
        Case { arena, root, asked }
    }

    fn descend(&self, revision: &Revision, keys: &[u32], see: impl FnMut(Option<u32>)) -> Option<()> {
        // SAFETY: calls made the arena and none was refused, and the root is its newest slot's.
        unsafe { revision.descend(self.arena.lent.words(), self.root, keys, see) }
    }

    /// What is timed has to answer as rpds does.
    fn check(&mut self, revision: &Revision) {
        let map = self.arena.newest_map().clone();
        for Asked { keys, there, .. } in &self.asked {
            let values: Vec<Option<u32>> = keys.iter().map(|key| map.get(key).copied()).collect();
            assert!(values.iter().all(|value| value.is_some() == *there), "the keys are there or not");
            let mut found = Vec::new();
            if self.descend(revision, keys, |value| found.push(value)).is_some() {
                assert_eq!(found, values, "{}: descents", revision.name);
            }
            for (key, value) in keys.iter().zip(values).take(FEW) {
                let made = Call::Get { s: self.arena.newest(), key: *key };
                let answer = value.map_or(Answer::Refused(ABSENT), Answer::Word);
                assert_eq!(revision.call(&mut self.arena.lent, made), answer, "{}: {made:?}", revision.name);
            }
        }
    }

    /// Nanoseconds of the public call before and now, and of the test now: means over the few keys.
    fn calls(&mut self, revisions: &[Revision]) -> Vec<Option<f64>> {
        let (s, keys, lent) = (self.arena.newest(), &self.asked[0].keys, &mut self.arena.lent);
        let [before, now] = revisions else { unreachable!("two revisions are timed") };
        let times = least_times(3 * FEW, |i| {
            let get = Call::Get { s, key: keys[i / 3] };
            let (revision, made) = [(before, get), (now, get), (now, Call::Sound)][i % 3];
            time(|| see(revision.call(black_box(lent), made)))
        });
        let mean = |which| times.iter().skip(which).step_by(3).sum::<f64>() / FEW as f64;
        (0..3).map(mean).map(Some).collect()
    }

    /// Nanoseconds of the descent before and now, and of rpds's get called and inlined; a round
    /// times all four.
    fn descents(&self, revisions: &[Revision], keys: &[u32]) -> Vec<Option<f64>> {
        let map = black_box(self.arena.newest_map());
        let times = least_times_if(4, |i| {
            time_if(|| {
                match i {
                    2 => keys.iter().for_each(|key| see(rpds_get(map, *key))),
                    3 => keys.iter().for_each(|key| see(map.get(key))),
                    _ => self.descend(&revisions[i], keys, see)?,
                }
                Some(())
            })
        });
        times.into_iter().map(|taken| taken.map(|taken| taken / keys.len() as f64)).collect()
    }

    /// Nanoseconds of one descent right after the revision's own soundness test, as the public call
    /// makes it, before and now, and of rpds's get called likewise: by the few keys, which the test
    /// makes the processor forget.
    fn after_a_test(&mut self, revisions: &[Revision]) -> Vec<Option<f64>> {
        let mut times = [const { Vec::new() }; 3];
        for (round, i) in (0..AFTER_A_TEST).flat_map(|round| (0..FEW).map(move |i| (round, i))) {
            for which in by_turns(round + i, 2).chain([2]) {
                let tested = &revisions[which.min(1)];
                assert_eq!(tested.call(&mut self.arena.lent, Call::Sound), truth(true), "the arena is sound");
                let (keys, map) = (&self.asked[0].keys[i..=i], black_box(self.arena.newest_map()));
                let taken = time_if(|| {
                    if which < 2 {
                        self.descend(tested, keys, see)?
                    } else {
                        see(rpds_get(map, keys[0]))
                    }
                    Some(())
                });
                times[which].extend(taken.map(nanos));
            }
        }
        times.map(middle_mean).into()
    }
}

/// rpds's get by a call, as the library's descent is one.
#[inline(never)]
fn rpds_get(map: &Map, key: u32) -> Option<u32> {
    map.get(&key).copied()
}

pub fn tables(revisions: &[Revision]) {
    let mut cases = SIZES.map(Case::new);
    cases.iter_mut().for_each(|case| revisions.iter().for_each(|revision| case.check(revision)));
    descents(&cases, revisions);
    println!("\n## One descent right after a soundness test\n");
    println!("| entries | before ns | now ns | rpds called ns | now to rpds |\n|---|---|---|---|---|");
    for case in &mut cases {
        let times = case.after_a_test(revisions);
        let [before, now, rpds] = [0, 1, 2].map(|which| number(times[which], 0));
        println!("| {} | {before} | {now} | {rpds} | {} |", case.arena.keys.len(), ratio(times[1], times[2]));
    }
    calls(&mut cases, revisions);
}

fn descents(cases: &[Case], revisions: &[Revision]) {
    println!("\n## The descent of get, without the soundness test\n");
    println!("| entries | keys | before ns | now ns | rpds called ns | inlined ns | now to called | to inlined |");
    println!("|---|---|---|---|---|---|---|---|");
    for case in cases {
        for Asked { name, keys, .. } in &case.asked {
            let times = least_of_passes(PASSES, || case.descents(revisions, keys));
            let [before, now, called, inlined] = [0, 1, 2, 3].map(|which| number(times[which], 1));
            print!("| {} | {name} | {before} | {now} | {called} | {inlined} |", case.arena.keys.len());
            println!(" {} | {} |", ratio(times[1], times[2]), ratio(times[1], times[3]));
        }
    }
}

fn calls(cases: &mut [Case], revisions: &[Revision]) {
    println!("\n## The public get\n");
    println!("| entries | before µs | now µs | the test alone µs |\n|---|---|---|---|");
    for case in cases {
        let times = least_of_passes(PASSES, || case.calls(revisions));
        let [before, now, test] = [0, 1, 2].map(|which| number(times[which].map(|nanos| nanos / 1000.0), 2));
        println!("| {} | {before} | {now} | {test} |", case.arena.keys.len());
    }
}
