//! One arena, sound or not: the test beside the checker, and every call on it.
use crate::bases;
use crate::counts::Counts;
use crate::plain::{self, Plain, listings};
use checker::Demand;
use common::random::Random;
use library::Subject;
use library::call::{Answer, Bound, Call, Differences, End, UNSOUND, Walk, truth};
use library::lent::Lent;
use library::outcome::{Outcome, holds, same};

/// How many pairs of slots are audited on a sound arena, and by how many steps at the most: each
/// step tests the whole arena.
const PAIRS: usize = 2;
const STEPS: usize = 40;

/// Who is examined, and by which checker: `left_out` is only given to see that the missing demand is noticed.
pub struct Examiner<S> {
    pub subject: S,
    pub left_out: Option<Demand>,
}

impl<S: Subject> Examiner<S> {
    /// An arena that is going to be damaged.
    pub fn examine_base(&mut self, words: &[u32], random: &mut Random, counts: &mut Counts) -> Outcome {
        self.examine(words, random, counts)?;
        bases::assert_sound(words);
        Ok(())
    }

    /// Any words; whether they are sound.
    pub fn examine(&mut self, words: &[u32], random: &mut Random, counts: &mut Counts) -> Outcome<bool> {
        let outcome = self.compare(words, random, counts);
        outcome.map_err(|message| format!("{message}; the words: {}", shown(words)))
    }

    fn compare(&mut self, words: &[u32], random: &mut Random, counts: &mut Counts) -> Outcome<bool> {
        let sound = checker::sound_without(words, self.left_out);
        counts.arena(words.len(), sound);
        let mut lent = Lent::new(words);
        self.ask(&mut lent, words, Call::Sound, truth(sound), counts)?;
        if sound {
            self.on_sound(words, random, counts)?;
        } else {
            for call in calls(words, random) {
                self.ask(&mut lent, words, call, Answer::Refused(UNSOUND), counts)?;
            }
        }
        if random.one_in(8) {
            self.format(words, random, counts)?;
        }
        Ok(sound)
    }

    /// A call that has to give this answer and to change no word.
    fn ask(&mut self, lent: &mut Lent, words: &[u32], call: Call, expected: Answer, counts: &mut Counts) -> Outcome {
        let found = self.subject.call(lent, call);
        counts.calls += 1;
        if expected != found {
            return Err(format!("{call:?}: expected {expected:?}, found {found:?}"));
        }
        let unchanged = lent.words() == words && lent.guards_whole();
        if unchanged { Ok(()) } else { Err(format!("{call:?} changes a word")) }
    }

    /// Every call on a copy of the sound arena: answers by the listings; what is refused, or reads, changes no word.
    fn on_sound(&mut self, words: &[u32], random: &mut Random, counts: &mut Counts) -> Outcome {
        let plain = Plain::of(words);
        let mut lent = Lent::new(words);
        for call in calls(words, random) {
            let expected = plain.expected(call);
            if !call.writes() || matches!(expected, Answer::Refused(_)) {
                counts.refused_on_sound += u64::from(matches!(expected, Answer::Refused(_)));
                self.ask(&mut lent, words, call, expected, counts)?;
            } else {
                self.write(words, &plain, call, expected, counts)?;
            }
        }
        let held = plain.held();
        let mut pairs = held.windows(2).take(PAIRS);
        pairs.try_for_each(|two| self.audit(two, words, &plain, counts))
    }

    /// Difference steps of two slots to END, where that is not far.
    fn audit(&mut self, two: &[u32], words: &[u32], plain: &Plain, counts: &mut Counts) -> Outcome {
        let (mut at, mut lent) = (Differences::new(two[0], two[1]), Lent::new(words));
        for _ in 0..STEPS {
            let call = Call::Difference { at };
            let expected = plain.expected(call);
            self.ask(&mut lent, words, call, expected, counts)?;
            counts.audit_steps += 1;
            let Answer::Difference(given) = expected else { return Ok(()) };
            at = at.stepped(given.key);
        }
        Ok(())
    }

    /// An accepted call that writes leaves a sound arena with the listings that are expected.
    fn write(&mut self, words: &[u32], plain: &Plain, call: Call, expected: Answer, counts: &mut Counts) -> Outcome {
        let mut lent = Lent::new(words);
        let found = self.subject.call(&mut lent, call);
        counts.calls += 1;
        counts.written_on_sound += 1;
        same(&format!("{call:?}"), expected, found)?;
        holds("a sound arena stays sound", checker::sound(lent.words()) && lent.guards_whole())?;
        same(&format!("listings after {call:?}"), plain.after(call, found), listings(lent.words()))
    }

    /// Format takes any words whose length fits, and refuses all else without a change.
    fn format(&mut self, words: &[u32], random: &mut Random, counts: &mut Counts) -> Outcome {
        let (n, v) = sizes(words, random);
        let call = Call::Format { n, v };
        let mut lent = Lent::new(words);
        let expected = match plain::format(words.len(), n, v) {
            Ok(done) => done,
            Err(refusal) => {
                return self.ask(&mut lent, words, call, Answer::Refused(refusal), counts);
            }
        };
        counts.calls += 1;
        counts.formatted += 1;
        same("format", expected, self.subject.call(&mut lent, call))?;
        let after = lent.words();
        holds("a formatted arena is sound", checker::sound(after) && lent.guards_whole())?;
        same("free nodes after format", n as usize, plain::free_number(after))?;
        same("slots after format", vec![None; v as usize], listings(after))
    }
}

/// Sizes that fit the length most often.
fn sizes(words: &[u32], random: &mut Random) -> (u32, u32) {
    let v = 1 + random.below(33) as u32;
    let rest = words.len() as u32;
    let n = rest.wrapping_sub(8 + 2 * v) / 6;
    let fitting = (1..=32).find(|v| rest > 8 + 2 * v && (rest - 8 - 2 * v).is_multiple_of(6));
    match (random.below(4), fitting) {
        (0, _) => (n, v),
        (1, _) => (words.first().copied().unwrap_or(0), words.get(1).copied().unwrap_or(0)),
        (_, Some(v)) => ((rest - 8 - 2 * v) / 6, v),
        _ => (random.word(), random.word()),
    }
}

/// Every call but format and the test, with slots and keys that are there or not.
fn calls(words: &[u32], random: &mut Random) -> Vec<Call> {
    let slots = words.get(1).map_or(1, |v| 1 + *v as usize % 40);
    let (s, t) = (random.below(slots + 1) as u32, random.below(slots + 1) as u32);
    let any = |random: &mut Random| words.get(2 + 6 * random.below(1 + words.len() / 6)).copied().unwrap_or(7);
    let key = if random.one_in(4) { random.word() } else { any(random) };
    let mut bound = || Bound { kind: random.below(4) as u32, key: any(random) };
    let (start, end) = (bound(), bound());
    // Mostly none, since with both given hardly a key is left between them.
    let mut last_key = || ([0, 0, 0, 1, 2][random.below(5)], any(random));
    let walk = Walk { slot: s, start, end, front: last_key(), back: last_key() };
    let mut calls = vec![
        Call::New,
        Call::Hold { s },
        Call::Release { s },
        Call::Size { s },
        Call::FreeNodes,
        Call::Get { s, key },
        Call::First { s },
        Call::Last { s },
        Call::Insert { s, key, value: 5 },
        Call::Remove { s, key },
        Call::Compare { s, t },
        Call::Equal { s, t },
        Call::Step { end: End::Front, walk },
        Call::Step { end: End::Back, walk },
        Call::RescaleMark { s },
        Call::Difference { at: Differences::new(s, t) },
        Call::Difference { at: Differences { first: t, second: s, given: walk.front } },
    ];
    let first = random.below(calls.len());
    calls.rotate_left(first);
    calls
}

fn shown(words: &[u32]) -> String {
    if words.len() <= 200 { format!("{words:?}") } else { format!("{} of them, {:?} ..", words.len(), &words[..8]) }
}
