//! Faults in the difference step.
use super::Spoil;
use super::answers::{entries, held};
use library::call::{Answer, Call, Difference, Differences, END, IN_BOTH};
use library::layout::{self, HEAD, node_at};
use library::lent::Lent;
use library::{Library, Subject};

pub const FAULTS: &[(&str, Spoil)] = &[
    ("only in the first and only in the second are exchanged", kinds_crossed),
    ("the two values of a tag in both are exchanged", values_crossed),
    ("the value that is not there is the one that is", missing_value),
    ("a difference is skipped", skip),
    ("a difference is skipped above 1,000 entries", skip_when_large),
    ("an equal tag is given before a difference", equal_before_difference),
    ("an equal tag is given in the place of END", equal_before_end),
    ("the last key is given again", last_key_again),
    ("other values at one tag are no difference", keys_alone),
    ("END after the first difference", |_, _, call, answer| {
        given(call, answer, |at, _| (at.given.0 != 0).then_some(Answer::Refused(END)))
    }),
    ("END where the first version has nothing left", end_with_first),
    ("versions of one size have no difference", sizes_alone),
    ("a last key counts only where the word before it is 1", last_key_by_one),
    ("a slot that is not held, named twice, is END", |_, _, call, answer| match call {
        Call::Difference { at } if at.first == at.second => Answer::Refused(END),
        _ => answer,
    }),
    ("a second slot that is not held is END", second_not_tested),
    ("a step that gives a difference writes a spare word", |_, lent, _, answer| {
        if matches!(answer, Answer::Difference(_)) {
            lent.words_mut()[4] += 1;
        }
        answer
    }),
    ("a difference step writes a free node's key", |before, lent, call, answer| {
        if matches!(call, Call::Difference { .. }) && before[HEAD] != 0 {
            lent.words_mut()[node_at(before[HEAD] as usize)] += 1;
        }
        answer
    }),
    ("a difference step writes behind the words", |_, lent, call, answer| {
        if matches!(call, Call::Difference { .. }) {
            *lent.beyond() += 1;
        }
        answer
    }),
];

/// What a fault makes of a step that gives a difference; none leaves the answer as it is.
fn given<F>(call: Call, answer: Answer, spoil: F) -> Answer
where
    F: FnOnce(Differences, Difference) -> Option<Answer>,
{
    match (call, answer) {
        (Call::Difference { at }, Answer::Difference(d)) => spoil(at, d).unwrap_or(answer),
        _ => answer,
    }
}

/// The right answer to another step.
fn asked(lent: &mut Lent, at: Differences) -> Answer {
    Library.call(lent, Call::Difference { at })
}

fn kinds_crossed(_: &[u32], _: &mut Lent, call: Call, answer: Answer) -> Answer {
    given(call, answer, |_, d| {
        let kind = if d.kind == IN_BOTH { IN_BOTH } else { IN_BOTH - d.kind };
        Some(Answer::Difference(Difference { kind, ..d }))
    })
}

fn values_crossed(_: &[u32], _: &mut Lent, call: Call, answer: Answer) -> Answer {
    given(call, answer, |_, d| {
        let crossed = Difference { first: d.second, second: d.first, ..d };
        (d.kind == IN_BOTH).then_some(Answer::Difference(crossed))
    })
}

fn missing_value(_: &[u32], _: &mut Lent, call: Call, answer: Answer) -> Answer {
    given(call, answer, |_, d| {
        let value = d.first | d.second;
        let doubled = Difference { first: value, second: value, ..d };
        (d.kind != IN_BOTH).then_some(Answer::Difference(doubled))
    })
}

/// The next difference is given instead, where there is one.
fn skip(_: &[u32], lent: &mut Lent, call: Call, answer: Answer) -> Answer {
    given(call, answer, |at, d| match asked(lent, at.stepped(d.key)) {
        next @ Answer::Difference(_) => Some(next),
        _ => None,
    })
}

fn skip_when_large(before: &[u32], lent: &mut Lent, call: Call, answer: Answer) -> Answer {
    match call {
        Call::Difference { at } if size(before, at.first) <= 1000 => answer,
        _ => skip(before, lent, call, answer),
    }
}

fn equal_before_difference(before: &[u32], _: &mut Lent, call: Call, answer: Answer) -> Answer {
    given(call, answer, |at, d| equal_tag(before, at, |key| key < d.key))
}

fn equal_before_end(before: &[u32], _: &mut Lent, call: Call, answer: Answer) -> Answer {
    let equal = match (call, answer) {
        (Call::Difference { at }, Answer::Refused(END)) => equal_tag(before, at, |_| true),
        _ => None,
    };
    equal.unwrap_or(answer)
}

/// A tag above the last key with the same value in both versions, if there is one that will do.
fn equal_tag(before: &[u32], at: Differences, will_do: impl Fn(u32) -> bool) -> Option<Answer> {
    let others = entries(before, at.second);
    let above = |key: u32| at.given.0 == 0 || key > at.given.1;
    let mut equal = entries(before, at.first).into_iter().filter(|e| others.contains(e));
    let (key, value) = equal.find(|e| above(e.0) && will_do(e.0))?;
    Some(Answer::Difference(Difference { kind: IN_BOTH, key, first: value, second: value }))
}

/// Where nothing is left, the difference at the last key.
fn last_key_again(_: &[u32], lent: &mut Lent, call: Call, answer: Answer) -> Answer {
    match (call, answer) {
        (Call::Difference { at }, Answer::Refused(END)) if at.given.0 != 0 && at.given.1 != 0 => {
            asked(lent, at.stepped(at.given.1 - 1))
        }
        _ => answer,
    }
}

/// The next difference of another kind, or END.
fn keys_alone(before: &[u32], lent: &mut Lent, call: Call, answer: Answer) -> Answer {
    given(call, answer, |at, d| {
        (d.kind == IN_BOTH).then(|| {
            let (at, next) = (at.stepped(d.key), asked(lent, at.stepped(d.key)));
            keys_alone(before, lent, Call::Difference { at }, next)
        })
    })
}

fn end_with_first(before: &[u32], _: &mut Lent, call: Call, answer: Answer) -> Answer {
    given(call, answer, |at, d| {
        let ended = entries(before, at.first).last().is_none_or(|last| last.0 < d.key);
        ended.then_some(Answer::Refused(END))
    })
}

fn sizes_alone(before: &[u32], _: &mut Lent, call: Call, answer: Answer) -> Answer {
    given(call, answer, |at, _| {
        let alike = size(before, at.first) == size(before, at.second);
        alike.then_some(Answer::Refused(END))
    })
}

/// Every word but 1 is taken for no.
fn last_key_by_one(_: &[u32], lent: &mut Lent, call: Call, answer: Answer) -> Answer {
    let Call::Difference { at } = call else { return answer };
    if at.given.0 > 1 { asked(lent, Differences::new(at.first, at.second)) } else { answer }
}

fn second_not_tested(before: &[u32], _: &mut Lent, call: Call, answer: Answer) -> Answer {
    let Call::Difference { at } = call else { return answer };
    let second_alone = held(before, at.first) && !held(before, at.second);
    if second_alone { Answer::Refused(END) } else { answer }
}

/// The size of a held slot, else 0.
fn size(words: &[u32], s: u32) -> u32 {
    if held(words, s) { layout::slot(words, s).1 } else { 0 }
}
