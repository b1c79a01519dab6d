//! What a call takes above its soundness test: timed by itself below the test, and as the
//! difference of the public call and the test.
use crate::revision::Revision;
use crate::shown::{number, ratio};
use crate::timing::{by_turns, least_of_passes, least_times_if, median, nanos, rounds, see, time, time_if};
use library::call::{Call, truth};
use library::lent::Lent;
use std::fmt::Debug;
use std::hint::black_box;
use std::ops::Range;

/// So many questions are asked by public calls and right after a test.
const FEW: usize = 64;

/// How often the rounds are made.
const PASSES: usize = 4;

/// Questions about a sound arena, for public calls, for the functions below the test, and for rpds.
pub trait Questions {
    type Answer: PartialEq + Debug;

    fn count(&self) -> usize;

    /// What the revision's public call answers; none where there is no such call.
    fn call(&self, revision: &Revision, lent: &mut Lent, question: usize) -> Option<Self::Answer>;

    /// What the revision's function below the test answers; none where there is no such function.
    fn below(
        &self,
        revision: &Revision,
        words: &[u32],
        which: Range<usize>,
        see: impl FnMut(Self::Answer),
    ) -> Option<()>;

    /// What rpds answers; none where it answers no question by itself.
    fn rpds(&self, which: Range<usize>, see: impl FnMut(Self::Answer)) -> Option<()>;

    /// The right answers to all questions, which are rpds's.
    fn right(&self) -> Vec<Self::Answer> {
        let mut right = Vec::new();
        let answered = self.rpds(0..self.count(), |answer| right.push(answer));
        answered.expect("rpds answers each question");
        right
    }
}

/// Nanoseconds of one question by one way of timing: of each revision, and of rpds.
pub struct Row {
    pub way: &'static str,
    pub ours: Vec<Option<f64>>,
    rpds: Option<f64>,
}

/// A unit of the table and how many nanoseconds it has.
pub type Unit = (&'static str, f64);

pub fn heading(revisions: &[Revision], what: &str, unit: Unit) {
    let ours: String = revisions.iter().map(|revision| format!(" {} {} |", revision.name, unit.0)).collect();
    println!("| {what} | timed |{ours} now to before | rpds {} | now to rpds |", unit.0);
    println!("|---|---|{}---|---|---|", "---|".repeat(revisions.len()));
}

pub fn print(what: &str, rows: &[Row], unit: Unit) {
    for Row { way, ours, rpds } in rows {
        let shown = |nanos: &Option<f64>| number(nanos.map(|nanos| nanos / unit.1), 1);
        let cells: Vec<String> = ours.iter().map(shown).collect();
        let (before, now) = (ours[0], ours[ours.len() - 1]);
        print!("| {what} | {way} | {} | {} |", cells.join(" | "), ratio(now, before));
        println!(" {} | {} |", shown(rpds), ratio(now, *rpds));
    }
}

/// Sees that all answer as rpds does, and times them in every way.
pub fn rows(questions: &impl Questions, revisions: &[Revision], lent: &mut Lent) -> Vec<Row> {
    revisions.iter().for_each(|revision| check(questions, revision, lent));
    let few = questions.count().min(FEW);
    let mut rows = vec![by_itself("below the test", questions, revisions, lent, few)];
    if questions.count() > few {
        rows[0].way = "below the test, the same 64";
        rows.push(by_itself("below the test, any", questions, revisions, lent, questions.count()));
    }
    rows.push(after_a_test(questions, revisions, lent, few));
    let rpds = rows[0].rpds;
    let (least, medians) = calls_less_tests(questions, revisions, lent, few);
    rows.push(Row { way: "call less test, the least times", ours: least, rpds });
    rows.push(Row { way: "call less test, the median", ours: medians, rpds });
    rows
}

fn check(questions: &impl Questions, revision: &Revision, lent: &mut Lent) {
    let (right, mut below) = (questions.right(), Vec::new());
    let all = 0..questions.count();
    if questions.below(revision, lent.words(), all, |answer| below.push(answer)).is_some() {
        assert!(below == right, "{}: below the test rpds's answers are given", revision.name);
    }
    for (i, right) in right.into_iter().enumerate().take(FEW) {
        if let Some(answer) = questions.call(revision, lent, i) {
            assert_eq!(answer, right, "{}: question {i}", revision.name);
        }
    }
}

/// The first so many questions one after the other; a round times all who answer them.
fn by_itself(way: &'static str, questions: &impl Questions, revisions: &[Revision], lent: &Lent, count: usize) -> Row {
    let words = lent.words();
    let asked = |i: usize| {
        match revisions.get(i) {
            Some(revision) => questions.below(revision, black_box(words), 0..count, see)?,
            None => questions.rpds(0..count, see)?,
        }
        Some(())
    };
    let mut ours = least_of_passes(PASSES, || least_times_if(revisions.len() + 1, |i| time_if(|| asked(i))));
    ours.iter_mut().flatten().for_each(|taken| *taken /= count as f64);
    let rpds = ours.pop().flatten();
    Row { way, ours, rpds }
}

/// One question right after the revision's own test, as the public call asks it: the test makes the
/// processor forget much of what it has learnt. rpds is asked after the present revision's.
fn after_a_test(questions: &impl Questions, revisions: &[Revision], lent: &mut Lent, few: usize) -> Row {
    let mut times = vec![Vec::new(); revisions.len() + 1];
    let mut ask = |question: usize, i: usize| {
        let tested = &revisions[i.min(revisions.len() - 1)];
        assert_eq!(tested.call(lent, Call::Sound), truth(true), "the arena is sound");
        let which = question..question + 1;
        let taken = time_if(|| {
            match revisions.get(i) {
                Some(revision) => questions.below(revision, lent.words(), which, see)?,
                None => questions.rpds(which, see)?,
            }
            Some(())
        });
        times[i].extend(taken.map(nanos));
    };
    let last = revisions.len();
    let mut ask_all = |turn, question| by_turns(turn, last).chain([last]).for_each(|i| ask(question, i));
    rounds(|round| (0..few).for_each(|question| ask_all(round + question, question)));
    let mut ours: Vec<Option<f64>> = times.into_iter().map(median).collect();
    let rpds = ours.pop().flatten();
    Row { way: "right after a test, the median", ours, rpds }
}

/// A revision's least times by question, of the call and of a test as often timed, and every
/// difference of the two.
struct CallsLessTests<'a> {
    revision: &'a Revision,
    calls: Vec<f64>,
    tests: Vec<f64>,
    all: Vec<f64>,
}

impl CallsLessTests<'_> {
    fn new(revision: &Revision, questions: usize) -> CallsLessTests<'_> {
        let none = vec![f64::INFINITY; questions];
        CallsLessTests { revision, calls: none.clone(), tests: none, all: Vec::new() }
    }

    /// Times a test and a call, if there is such a call. One test runs before them, so that neither
    /// comes right after the other revision's code.
    fn note(&mut self, questions: &impl Questions, lent: &mut Lent, question: usize) {
        let revision = self.revision;
        let mut test = || nanos(time(|| see(revision.call(black_box(lent), Call::Sound))));
        test();
        let test = test();
        let call = time_if(|| questions.call(revision, black_box(lent), question).map(see));
        let Some(call) = call.map(nanos) else { return };
        self.calls[question] = self.calls[question].min(call);
        self.tests[question] = self.tests[question].min(test);
        self.all.push(call - test);
    }

    /// None where no call was timed.
    fn of_least(&self) -> Option<f64> {
        let differences = self.calls.iter().zip(&self.tests).map(|(call, test)| call - test);
        (!self.all.is_empty()).then(|| differences.sum::<f64>() / self.calls.len() as f64)
    }
}

/// By revision, the mean of the least calls less the least tests, and the median of call less test.
fn calls_less_tests(
    questions: &impl Questions,
    revisions: &[Revision],
    lent: &mut Lent,
    few: usize,
) -> (Vec<Option<f64>>, Vec<Option<f64>>) {
    let new = |revision| CallsLessTests::new(revision, few);
    let mut kept: Vec<CallsLessTests> = revisions.iter().map(new).collect();
    let mut ask_all = |turn, question| {
        by_turns(turn, revisions.len()).for_each(|i| kept[i].note(questions, lent, question));
    };
    for _ in 0..PASSES {
        rounds(|round| (0..few).for_each(|question| ask_all(round + question, question)));
    }
    let least = kept.iter().map(CallsLessTests::of_least).collect();
    (least, kept.into_iter().map(|kept| median(kept.all)).collect())
}
