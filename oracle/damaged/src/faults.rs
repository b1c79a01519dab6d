//! Faults put in on purpose: the checker without one of its demands, and a library that answers or writes wrongly. Each has to be found.
use crate::counts::Counts;
use crate::examine::Examiner;
use crate::sweep::{self, Extent};
use checker::Demand;
use common::quiet;
use common::random::Random;
use library::call::{ABSENT, Answer, Call, Differences, END, End, NO_VERSION, UNSOUND, Walk};
use library::layout::{self, HEAD, node_at};
use library::lent::{Lent, arena_len};
use library::outcome::Outcome;
use library::{Library, Subject};

/// What a fault makes of a call: the words after it, and the right answer; it gives the wrong one.
type Spoil = fn(&mut Lent, Call, Answer) -> Answer;

struct Faulty {
    spoil: Spoil,
}

impl Subject for Faulty {
    fn call(&mut self, lent: &mut Lent, call: Call) -> Answer {
        let answer = Library.call(lent, call);
        (self.spoil)(lent, call, answer)
    }
}

const FAULTS: &[(&str, Spoil)] = &[
    ("hold of a slot that cannot be is NO_VERSION before UNSOUND", |_, call, answer| match (call, answer) {
        (Call::Hold { s }, Answer::Refused(UNSOUND)) if s > 32 => Answer::Refused(NO_VERSION),
        _ => answer,
    }),
    ("get on an unsound arena is ABSENT", |_, call, answer| match (call, answer) {
        (Call::Get { .. }, Answer::Refused(UNSOUND)) => Answer::Refused(ABSENT),
        _ => answer,
    }),
    ("insert counts the refusals of unsound arenas in a spare word", |lent, call, answer| {
        if matches!((call, answer), (Call::Insert { .. }, Answer::Refused(UNSOUND))) && lent.words().len() > 7 {
            lent.words_mut()[7] = lent.words()[7].wrapping_add(1);
        }
        answer
    }),
    ("release on an unsound arena gives the slot up", |lent, call, answer| {
        if let (Call::Release { .. }, Answer::Refused(UNSOUND)) = (call, answer)
            && let Some(last) = lent.words_mut().last_mut()
        {
            *last = last.wrapping_add(1);
        }
        answer
    }),
    ("the test repairs the free list's head", |lent, call, answer| {
        if let (Call::Sound, Answer::Word(0), [n, _, head, ..]) = (call, answer, lent.words())
            && head > n
        {
            lent.words_mut()[HEAD] = 0;
        }
        answer
    }),
    ("the test says yes to a single word too many", |lent, call, answer| match (call, lent.words()) {
        (Call::Sound, [n, v, ..]) if *n < 2048 && *v < 33 && lent.words().len() == arena_len(*n, *v) + 1 => {
            Answer::Word(1)
        }
        _ => answer,
    }),
    ("the test says no where a value's highest bit is set", |lent, call, answer| match (call, answer) {
        (Call::Sound, Answer::Word(1)) => Answer::Word(u32::from(lent.words()[node_at(1) + 1] >> 31 == 0)),
        _ => answer,
    }),
    ("the test says no where a spare word is set", |lent, call, answer| match (call, answer) {
        (Call::Sound, Answer::Word(1)) => Answer::Word(u32::from(lent.words()[4] == 0)),
        _ => answer,
    }),
    ("a refused hold writes a spare word of a sound arena", |lent, call, answer| {
        if matches!((call, answer), (Call::Hold { .. }, Answer::Refused(NO_VERSION))) {
            lent.words_mut()[6] = lent.words()[6].wrapping_add(1);
        }
        answer
    }),
    ("free nodes gives one too many where all nodes are free", |lent, call, answer| match (call, answer) {
        (Call::FreeNodes, Answer::Word(free)) if free == lent.words()[0] => Answer::Word(free + 1),
        _ => answer,
    }),
    ("free nodes gives one too few where some are in use", |lent, call, answer| match (call, answer) {
        (Call::FreeNodes, Answer::Word(free)) if 0 < free && free < lent.words()[0] => Answer::Word(free - 1),
        _ => answer,
    }),
    ("a step at the back forgets the last key given there", |lent, call, answer| match call {
        Call::Step { end: End::Back, walk } => {
            Library.call(lent, Call::Step { end: End::Back, walk: Walk { back: (0, 0), ..walk } })
        }
        _ => answer,
    }),
    ("a step at the front goes on beyond the last key given at the back", |lent, call, answer| match call {
        Call::Step { end: End::Front, walk } => {
            Library.call(lent, Call::Step { end: End::Front, walk: Walk { back: (0, 0), ..walk } })
        }
        _ => answer,
    }),
    ("a difference step on an unsound arena is END", |_, call, answer| match (call, answer) {
        (Call::Difference { .. }, Answer::Refused(UNSOUND)) => Answer::Refused(END),
        _ => answer,
    }),
    ("a difference step changes the last word of an unsound arena", |lent, call, answer| {
        if let (Call::Difference { .. }, Answer::Refused(UNSOUND)) = (call, answer)
            && let Some(last) = lent.words_mut().last_mut()
        {
            *last ^= 1;
        }
        answer
    }),
    ("a difference step forgets the last key given", |lent, call, answer| match call {
        Call::Difference { at } => {
            let forgetful = Differences::new(at.first, at.second);
            Library.call(lent, Call::Difference { at: forgetful })
        }
        _ => answer,
    }),
    ("a version that is a part of another has no difference to it", part_alike),
    ("format takes a length that is one too long", |lent, call, answer| match call {
        Call::Format { n, v }
            if (1..=2047).contains(&n) && lent.words().len() as u64 == 9 + 2 * u64::from(v) + 6 * u64::from(n) =>
        {
            Answer::Done
        }
        _ => answer,
    }),
    ("format forgets a free node", |lent, call, answer| {
        if let (Call::Format { .. }, Answer::Done) = (call, answer) {
            lent.words_mut()[HEAD] = if lent.words()[0] > 1 { 2 } else { 0 };
        }
        answer
    }),
];

/// END where the root of the second version is a node of the first: so it is in planted arenas.
fn part_alike(lent: &mut Lent, call: Call, answer: Answer) -> Answer {
    let (Call::Difference { at }, Answer::Difference(_)) = (call, answer) else { return answer };
    let root = |s| layout::slot(lent.words(), s).0;
    let part = part_of(lent.words(), root(at.second), root(at.first));
    if part { Answer::Refused(END) } else { answer }
}

fn part_of(words: &[u32], part: u32, whole: u32) -> bool {
    if whole == 0 || whole == part {
        return whole != 0;
    }
    let node = layout::node(words, whole);
    part_of(words, part, node.left) || part_of(words, part, node.right)
}

/// What a run with a fault put in comes to. Only a difference finds the fault, since a panic can have any other cause.
enum Discovery {
    Difference { arenas: u64, message: String },
    Nothing,
    Panic,
}

pub fn run(extent: &Extent, seed: u64) -> Outcome {
    let mut missed = Vec::new();
    for demand in Demand::ALL {
        let discovery = discover(Library, Some(demand), extent, seed);
        report(&format!("the checker without {demand:?}"), discovery, &mut missed);
    }
    for (name, spoil) in FAULTS {
        report(name, discover(Faulty { spoil: *spoil }, None, extent, seed), &mut missed);
    }
    let put_in = Demand::ALL.len() + FAULTS.len();
    println!("{put_in} faults put in, {} found", put_in - missed.len());
    if missed.is_empty() { Ok(()) } else { Err(format!("not found: {missed:?}")) }
}

/// Runs until there is a difference, or to the end.
fn discover<S: Subject>(subject: S, left_out: Option<Demand>, extent: &Extent, seed: u64) -> Discovery {
    let mut examiner = Examiner { subject, left_out };
    let (mut discovery, mut counts) = (Discovery::Panic, Counts::default());
    quiet::panics(|| {
        discovery = match sweep::run(&mut examiner, extent, &mut Random::new(seed), &mut counts) {
            Ok(()) => Discovery::Nothing,
            Err(message) => Discovery::Difference { arenas: counts.arenas, message },
        };
    });
    discovery
}

/// Prints how the fault was found, or names it as missed.
fn report(name: &str, discovery: Discovery, missed: &mut Vec<String>) {
    match discovery {
        Discovery::Difference { arenas, message } => {
            let short: String = message.chars().take(160).collect();
            println!("found after {arenas} arenas: {name}: {short}");
        }
        Discovery::Nothing => missed.push(String::from(name)),
        Discovery::Panic => missed.push(format!("{name} (it ended in a panic)")),
    }
}
