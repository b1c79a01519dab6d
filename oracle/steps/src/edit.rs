//! `crates/trees/specs/Edit.antt`
use crate::insert::insert;
use crate::listing::{cut, put};
use crate::remove::remove;
use crate::tree::{Entry, Tree};

/// Edit.antt: Edit
#[derive(Clone, Copy, Debug, PartialEq, Eq)]
pub enum Edit {
    Setting(Entry),
    Cutting(u32),
}

/// Edit.antt: edited
pub fn edited(change: Edit, list: &[Entry]) -> Vec<Entry> {
    match change {
        Edit::Setting(x) => put(x, list),
        Edit::Cutting(k) => cut(k, list),
    }
}

/// Edit.antt: edit
pub fn edit(change: Edit, t: &Tree) -> Tree {
    match change {
        Edit::Setting(x) => insert(x, t),
        Edit::Cutting(k) => remove(k, t),
    }
}
