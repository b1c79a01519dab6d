//! One insert or remove: shape, colours, entries and fresh nodes, the listing and the size.
use crate::counts::Counts;
use crate::laws;
use crate::outcome::{Outcome, same};
use crate::version::Version;
use seen::shape;
use steps::edit::{Edit, edit, edited};
use steps::lookup::has;
use steps::tree::{Tree, listing, size};

/// The version that rpds makes of the parent, if it is the one that the definitions make.
pub fn compare(parent: &Version, change: Edit, counts: &mut Counts) -> Outcome<Version> {
    let map = match change {
        Edit::Setting(x) => parent.map.insert(x.key, x.value),
        Edit::Cutting(k) => parent.map.remove(&k),
    };
    let child = Version::of(map);
    compare_child(parent, change, &child)
        .map_err(|message| format!("{change:?} on {}: {message}", shape(&parent.tree)))?;
    count(parent, change, &child, counts);
    Ok(child)
}

fn compare_child(parent: &Version, change: Edit, child: &Version) -> Outcome {
    let found = child.seen.tree(&parent.numbers);
    same("listing", &child.listing, &edited(change, &parent.listing))?;
    same("listing of the nodes", &listing(&found), &edited(change, &parent.listing))?;
    same_tree(&found, &edit(change, &parent.tree))?;
    same("size", child.map.size(), size(&found))?;
    same("size in the fields", child.seen.size, size(&found))?;
    laws::hold(parent, change, child, &found)
}

/// Colours, entries and places of all nodes: a kept node has to be the parent's node of that very address.
fn same_tree(found: &Tree, defined: &Tree) -> Outcome {
    if found == defined {
        return Ok(());
    }
    Err(format!("the tree (* marks fresh nodes): rpds {}, the definition {}", shape(found), shape(defined)))
}

fn count(parent: &Version, change: Edit, child: &Version, counts: &mut Counts) {
    let counter = match change {
        Edit::Setting(x) if has(x.key, &parent.tree) => &mut counts.inserts_replacing,
        Edit::Setting(_) => &mut counts.inserts_new,
        Edit::Cutting(k) if has(k, &parent.tree) => &mut counts.removes_present,
        Edit::Cutting(_) => &mut counts.removes_absent,
    };
    *counter += 1;
    counts.nodes += child.seen.size as u64;
    counts.largest = counts.largest.max(child.seen.size);
}
