//! The least times of many rounds: other work on the machine can only add to a time.
use std::hint::black_box;
use std::sync::LazyLock;
use std::time::{Duration, Instant};

/// Rounds go on until this much time has gone by, but not fewer than the least and not more than the most.
const ENOUGH: Duration = Duration::from_millis(250);
const LEAST_ROUNDS: usize = 11;
const MOST_ROUNDS: usize = 400;

/// What it takes to read the clock twice.
static CLOCK: LazyLock<Duration> = LazyLock::new(|| (0..10_000).map(|_| raw(|| ())).min().expect("10,000 readings"));

fn raw(work: impl FnOnce()) -> Duration {
    let start = Instant::now();
    work();
    start.elapsed()
}

pub fn nanos(taken: Duration) -> f64 {
    taken.as_nanos() as f64
}

/// The time of the work.
pub fn time(work: impl FnOnce()) -> Duration {
    let clock = *CLOCK;
    raw(work).saturating_sub(clock)
}

/// The time of work that may find that it cannot be done.
pub fn time_if(work: impl FnOnce() -> Option<()>) -> Option<Duration> {
    let mut done = None;
    let taken = time(|| done = work());
    done.map(|()| taken)
}

/// A round is given its number.
pub fn rounds(mut round: impl FnMut(usize)) {
    let start = Instant::now();
    for number in 0..MOST_ROUNDS {
        if number >= LEAST_ROUNDS && start.elapsed() > ENOUGH {
            break;
        }
        round(number);
    }
}

/// So many contenders, in this order and in the opposite one by turns: to the second at a question
/// the processor may apply what it has just learnt from the first.
pub fn by_turns(turn: usize, contenders: usize) -> impl Iterator<Item = usize> {
    (0..contenders).map(move |i| if turn.is_multiple_of(2) { i } else { contenders - 1 - i })
}

/// The least time of each of so many calls, in nanoseconds: each round makes them all and gives the time of each.
pub fn least_times(calls: usize, mut call: impl FnMut(usize) -> Duration) -> Vec<f64> {
    let mut best = vec![Duration::MAX; calls];
    rounds(|_| {
        for (number, best) in best.iter_mut().enumerate() {
            *best = (*best).min(call(number));
        }
    });
    best.into_iter().map(nanos).collect()
}

/// The same of calls that may find that they cannot be made.
pub fn least_times_if(calls: usize, mut call: impl FnMut(usize) -> Option<Duration>) -> Vec<Option<f64>> {
    let made: Vec<bool> = (0..calls).map(|number| call(number).is_some()).collect();
    let times = least_times(calls, |number| call(number).unwrap_or_default());
    times.into_iter().zip(made).map(|(taken, made)| made.then_some(taken)).collect()
}

/// The least time, in nanoseconds, of a call that is too short to be timed alone: a round makes so many of them.
pub fn least_of(calls: usize, mut work: impl FnMut()) -> f64 {
    let mut best = Duration::MAX;
    rounds(|_| best = best.min(time(&mut work)));
    nanos(best) / calls as f64
}

/// The least of so many passes, time by time.
pub fn least_of_passes(passes: usize, mut pass: impl FnMut() -> Vec<Option<f64>>) -> Vec<Option<f64>> {
    let lesser = |(one, other): (Option<f64>, Option<f64>)| Some(one?.min(other?));
    (1..passes).fold(pass(), |best, _| best.into_iter().zip(pass()).map(lesser).collect())
}

/// The mean of the middle nine tenths; none where nothing was timed.
pub fn middle_mean(mut times: Vec<f64>) -> Option<f64> {
    times.sort_by(f64::total_cmp);
    let cut = times.len() / 20;
    let kept = &times[cut..times.len() - cut];
    (!kept.is_empty()).then(|| kept.iter().sum::<f64>() / kept.len() as f64)
}

/// None where nothing was timed.
pub fn median(mut times: Vec<f64>) -> Option<f64> {
    times.sort_by(f64::total_cmp);
    times.get(times.len() / 2).copied()
}

/// A result that the compiler may not leave out.
pub fn see<T>(result: T) {
    black_box(result);
}
