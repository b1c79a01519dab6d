//! rpds 1.2.1's red-black tree map: rpds's own files over our stand-in for archery.
//! `build.rs` writes the modules, each by the path of rpds's own file. The crate's other collections are left out.
extern crate alloc;

include!(concat!(env!("OUT_DIR"), "/modules.rs"));

pub use crate::map::red_black_tree_map::{RedBlackTreeMap, RedBlackTreeMapSync};
