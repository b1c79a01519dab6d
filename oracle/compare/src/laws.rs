//! What is claimed of every tree that an insert or a remove makes.
use crate::outcome::{Outcome, holds};
use crate::version::Version;
use steps::edit::Edit;
use steps::height::{h, insert_reserve, is_log, lg, remove_reserve};
use steps::lookup::{has, path};
use steps::shape::fine;
use steps::tree::{Tree, height, made, size};

pub fn hold(parent: &Version, change: Edit, child: &Version, found: &Tree) -> Outcome {
    holds("keys ascend, the root is black, the shape is red-black", fine(found))?;
    holds("the height is at most H(size)", height(found) <= h(size(found)))?;
    holds("lg is the rounded-down logarithm", is_log(size(found) + 1, lg(size(found) + 1) as u32))?;
    match change {
        Edit::Setting(x) => hold_after_insert(parent, x.key, found),
        Edit::Cutting(k) if has(k, &parent.tree) => hold_after_remove(parent, found),
        Edit::Cutting(_) => hold_after_nothing(parent, child, found),
    }
}

fn hold_after_insert(parent: &Version, key: u32, found: &Tree) -> Outcome {
    let new = usize::from(!has(key, &parent.tree));
    holds(
        "insert makes as many nodes as its path has, one more for a new key",
        made(found) == path(key, &parent.tree) + new,
    )?;
    holds("insert makes at most H + 1 nodes", made(found) <= insert_reserve(size(&parent.tree)))
}

fn hold_after_remove(parent: &Version, found: &Tree) -> Outcome {
    holds("remove makes at most 6H + 2 nodes", made(found) <= remove_reserve(size(&parent.tree)))
}

fn hold_after_nothing(parent: &Version, child: &Version, found: &Tree) -> Outcome {
    holds("remove of an absent key makes nothing", made(found) == 0)?;
    holds("remove of an absent key gives the parent's own root", child.map.ptr_eq(&parent.map) && *found == parent.tree)
}
