//! Which words an accepted call may change: a version that is held keeps every word of its nodes but the counts.
use library::call::Call;
use library::layout::{self, HEAD, NOT_HELD, SPARE};
use library::outcome::{Outcome, holds, same};

/// The words before and after an accepted call that writes; `slot` is the one that it hands out or gives up.
pub fn compare(call: Call, slot: u32, before: &[u32], after: &[u32]) -> Outcome {
    match call {
        Call::Format { n, v } => formatted(n, v, before, after),
        _ => kept(call, slot, before, after),
    }
}

fn kept(call: Call, slot: u32, before: &[u32], after: &[u32]) -> Outcome {
    same("N and V", &before[..HEAD], &after[..HEAD])?;
    same("the spare words", &before[SPARE], &after[SPARE])?;
    for s in (0..layout::slots(before) as u32).filter(|s| *s != slot) {
        same("a slot that the call does not touch", layout::slot(before, s), layout::slot(after, s))?;
    }
    let frees = matches!(call, Call::Release { .. });
    (1..=layout::nodes(before)).try_for_each(|i| node_kept(i, frees, before, after))
}

/// A node in use keeps its five first words; only a release makes one free.
fn node_kept(i: usize, frees: bool, before: &[u32], after: &[u32]) -> Outcome {
    let at = layout::node_at(i);
    if before[at..at + 6] == after[at..at + 6] || before[at + 5] == 0 {
        return Ok(());
    }
    if frees && after[at + 5] == 0 {
        return Ok(());
    }
    same("a node that a held version has", &before[at..at + 5], &after[at..at + 5])?;
    holds("a node that a held version has stays in use", after[at + 5] != 0)
}

/// docs/LAYOUT.md, "after format".
fn formatted(n: u32, v: u32, before: &[u32], after: &[u32]) -> Outcome {
    let mut expected = before.to_vec();
    expected[..8].copy_from_slice(&[n, v, 1, 0, 0, 0, 0, 0]);
    for i in 1..=n {
        let at = layout::node_at(i as usize);
        expected[at + 2] = if i < n { i + 1 } else { 0 };
        expected[at + 5] = 0;
    }
    let slots = layout::node_at(n as usize + 1);
    expected[slots..].chunks_mut(2).for_each(|slot| slot.copy_from_slice(&[NOT_HELD, 0]));
    holds("the words after format are those of docs/LAYOUT.md", expected == after)
}
