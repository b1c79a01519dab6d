//! The calls one by one, ours beside rpds's.
use crate::arena::{Arena, Map, Plan, height, word};
use crate::revision::Revision;
use crate::timing::{least_of, least_times, nanos, see, time};
use library::call::{Answer, Call, End, UNBOUNDED, Walk};
use std::hint::black_box;
use std::ops::Bound::{Excluded, Unbounded};
use std::time::Duration;

/// Keys of a round.
const KEYS: usize = 64;

/// Nanoseconds of a revision's call, and of its soundness test on the same words.
#[derive(Clone, Copy)]
pub struct Ours {
    pub call: f64,
    pub test: f64,
}

/// The times of each revision, the present one last, and of rpds.
#[derive(Clone)]
pub struct Times {
    pub ours: Vec<Ours>,
    pub rpds: f64,
}

impl Times {
    pub fn now(&self) -> Ours {
        *self.ours.last().expect("a revision is timed")
    }
}

pub type Measure = fn(&[Revision], Plan) -> Times;

pub const CALLS: &[(&str, Measure)] = &[
    ("get", get),
    ("insert", insert),
    ("remove", remove),
    ("step", step),
    ("walk over all", walk),
    ("compare", compare),
    ("first", first),
    ("last", last),
    ("size", size),
    ("new", new),
    ("hold", hold),
    ("release", release),
];

/// The time of one call of ours, and its answer.
fn timed(revision: &Revision, arena: &mut Arena, made: Call) -> (Duration, Answer) {
    let mut answer = Answer::Done;
    let taken = time(|| answer = black_box(revision.call(black_box(&mut arena.lent), black_box(made))));
    (taken, answer)
}

/// The time of a call that has to be accepted.
fn accepted(revision: &Revision, arena: &mut Arena, made: Call) -> (Duration, Answer) {
    let (taken, answer) = timed(revision, arena, made);
    assert!(!matches!(answer, Answer::Refused(_) | Answer::Astray), "{made:?} gave {answer:?}");
    (taken, answer)
}

/// For each revision the mean of the least times of so many calls, and the least time of its test
/// on the same arena. A round makes them all, the revisions in turn, so that a slower while of the
/// machine is in all of them.
fn beside_test(
    revisions: &[Revision],
    arena: &mut Arena,
    calls: usize,
    mut ours: impl FnMut(&Revision, &mut Arena, usize) -> Duration,
) -> Vec<Ours> {
    let count = revisions.len();
    let least = least_times(count * (calls + 1), |i| {
        let (revision, number) = (&revisions[i % count], i / count);
        if number < calls { ours(revision, arena, number) } else { timed(revision, arena, Call::Sound).0 }
    });
    let of = |which: usize| {
        let times: Vec<f64> = least.iter().skip(which).step_by(count).copied().collect();
        Ours { call: times[..calls].iter().sum::<f64>() / calls as f64, test: times[calls] }
    };
    (0..count).map(of).collect()
}

/// A reading call for each of some keys, and what rpds does for a key.
fn reading(revisions: &[Revision], plan: Plan, made: impl Fn(u32, u32) -> Call, rpds: impl Fn(&Map, u32)) -> Times {
    let mut arena = Arena::new(plan, 0);
    let (s, keys) = (arena.newest(), arena.some_keys(KEYS));
    let time_of = |revision: &Revision, arena: &mut Arena, i: usize| accepted(revision, arena, made(s, keys[i])).0;
    let ours = beside_test(revisions, &mut arena, KEYS, time_of);
    let rpds = least_of(KEYS, || keys.iter().for_each(|key| rpds(black_box(arena.newest_map()), *key)));
    Times { ours, rpds }
}

fn get(revisions: &[Revision], plan: Plan) -> Times {
    reading(revisions, plan, |s, key| Call::Get { s, key }, |map, key| see(map.get(&key)))
}

fn first(revisions: &[Revision], plan: Plan) -> Times {
    reading(revisions, plan, |s, _| Call::First { s }, |map, _| see(map.first()))
}

fn last(revisions: &[Revision], plan: Plan) -> Times {
    reading(revisions, plan, |s, _| Call::Last { s }, |map, _| see(map.last()))
}

fn size(revisions: &[Revision], plan: Plan) -> Times {
    reading(revisions, plan, |s, _| Call::Size { s }, |map, _| see(map.size()))
}

/// The step to a key from the number below it; rpds starts a range there and takes one entry.
fn step(revisions: &[Revision], plan: Plan) -> Times {
    let ours = |slot, key: u32| {
        let walk = Walk { front: (1, key - 1), ..Walk::new(slot, UNBOUNDED, UNBOUNDED) };
        Call::Step { end: End::Front, walk }
    };
    reading(revisions, plan, ours, |map, key| see(map.range::<u32, _>((Excluded(key - 1), Unbounded)).next()))
}

/// All entries from the front, the time of the whole; rpds's iterator goes on from where it is.
fn walk(revisions: &[Revision], plan: Plan) -> Times {
    let mut arena = Arena::new(plan, 0);
    let slot = arena.newest();
    let keys = arena.keys.clone();
    // One step more than there are entries gives END.
    let steps = keys.len() + 1;
    let mut ours = beside_test(revisions, &mut arena, steps, |revision, arena, i| {
        let start = Walk::new(slot, UNBOUNDED, UNBOUNDED);
        let walk = if i == 0 { start } else { start.stepped(End::Front, keys[i - 1]) };
        let (taken, answer) = timed(revision, arena, Call::Step { end: End::Front, walk });
        let given = if let Answer::Entry(key, _) = answer { Some(key) } else { None };
        assert_eq!(given, keys.get(i).copied(), "the walk gives every entry, then END");
        taken
    });
    let rpds = least_of(1, || black_box(arena.newest_map()).iter().for_each(see));
    let whole = |nanos: &mut f64| *nanos *= steps as f64;
    ours.iter_mut().for_each(|Ours { call, test }| [call, test].into_iter().for_each(whole));
    Times { ours, rpds }
}

/// The two newest versions, which differ in the last value; with one version, that version with itself.
fn compare(revisions: &[Revision], plan: Plan) -> Times {
    let mut arena = Arena::new(Plan { versions: plan.versions.min(2), ..plan }, 0);
    let (s, t) = (arena.slots[0], arena.newest());
    let (one, other) = (arena.maps[0].clone(), arena.newest_map().clone());
    // Further versions are second slots for the newest.
    for _ in 2..plan.versions {
        word(&mut arena.lent, Call::Hold { s: t });
    }
    let sign = Answer::Word(one.cmp(&other) as i32 as u32);
    let ours = beside_test(revisions, &mut arena, 1, |revision, arena, _| {
        let (taken, answer) = timed(revision, arena, Call::Compare { s, t });
        assert_eq!(answer, sign, "the versions compare as rpds's maps do");
        taken
    });
    let rpds = least_of(1, || see(black_box(&one).cmp(black_box(&other))));
    Times { ours, rpds }
}

/// An arena with a slot left, where so many nodes are free that the call is accepted.
fn with_a_slot(plan: Plan, reserve: usize) -> Arena {
    let mut arena = Arena::new(plan, reserve);
    if plan.versions as u32 == plan.v {
        arena.give_up(0);
    }
    arena
}

/// A call that hands out a slot, timed for each key, and the release of that slot: which of the two is asked for.
fn handing_out(
    revisions: &[Revision],
    arena: &mut Arena,
    keys: &[u32],
    made: impl Fn(u32, u32) -> Call,
    releases: bool,
) -> Vec<Ours> {
    let s = arena.newest();
    beside_test(revisions, arena, keys.len(), |revision, arena, i| {
        let (making, answer) = accepted(revision, arena, made(s, keys[i]));
        let Answer::Word(slot) = answer else { unreachable!("a slot is handed out") };
        let (releasing, _) = accepted(revision, arena, Call::Release { s: slot });
        if releases { releasing } else { making }
    })
}

/// What rpds takes to make a map for each key and to drop it again, in nanoseconds: the least of many rounds.
fn made_and_dropped(map: &Map, keys: &[u32], make: impl Fn(&Map, u32) -> Map) -> (f64, f64) {
    let mut maps = Vec::with_capacity(keys.len());
    let mut dropping = Duration::MAX;
    let mut making = Duration::MAX;
    least_of(1, || {
        making = making.min(time(|| keys.iter().for_each(|key| maps.push(make(black_box(map), *key)))));
        dropping = dropping.min(time(|| maps.clear()));
    });
    let mean = |taken: Duration| nanos(taken) / keys.len() as f64;
    (mean(making), mean(dropping))
}

fn insert(revisions: &[Revision], plan: Plan) -> Times {
    let mut arena = with_a_slot(plan, height(plan.entries) + 1);
    let keys = arena.other_keys(KEYS);
    let ours = handing_out(revisions, &mut arena, &keys, |s, key| Call::Insert { s, key, value: 7 }, false);
    let (rpds, _) = made_and_dropped(arena.newest_map(), &keys, |map, key| map.insert(key, 7));
    Times { ours, rpds }
}

fn remove(revisions: &[Revision], plan: Plan) -> Times {
    let mut arena = with_a_slot(plan, 6 * height(plan.entries) + 2);
    let keys = arena.some_keys(KEYS);
    let ours = handing_out(revisions, &mut arena, &keys, |s, key| Call::Remove { s, key }, false);
    let (rpds, _) = made_and_dropped(arena.newest_map(), &keys, |map, key| map.remove(&key));
    Times { ours, rpds }
}

fn new(revisions: &[Revision], plan: Plan) -> Times {
    let mut arena = with_a_slot(plan, 0);
    let keys = arena.some_keys(KEYS);
    let ours = handing_out(revisions, &mut arena, &keys, |_, _| Call::New, false);
    let (rpds, _) = made_and_dropped(arena.newest_map(), &keys, |_, _| Map::new());
    Times { ours, rpds }
}

fn hold(revisions: &[Revision], plan: Plan) -> Times {
    let mut arena = with_a_slot(plan, 0);
    let keys = arena.some_keys(KEYS);
    let ours = handing_out(revisions, &mut arena, &keys, |s, _| Call::Hold { s }, false);
    let (rpds, _) = made_and_dropped(arena.newest_map(), &keys, |map, _| map.clone());
    Times { ours, rpds }
}

/// A version that an insert of a new key has just made is given up.
fn release(revisions: &[Revision], plan: Plan) -> Times {
    let mut arena = with_a_slot(plan, height(plan.entries) + 1);
    let keys = arena.other_keys(KEYS);
    let ours = handing_out(revisions, &mut arena, &keys, |s, key| Call::Insert { s, key, value: 7 }, true);
    let (_, rpds) = made_and_dropped(arena.newest_map(), &keys, |map, key| map.insert(key, 7));
    Times { ours, rpds }
}
