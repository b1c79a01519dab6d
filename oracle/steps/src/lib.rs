//! The definitions over plain trees, once more in safe Rust: one file here for each file of definitions in
//! `crates/trees/specs` and `crates/heights/specs`, line beside line, under the same names.
#![forbid(unsafe_code)]

pub mod difference;
pub mod edit;
pub mod height;
pub mod insert;
pub mod listing;
pub mod lookup;
pub mod order;
pub mod range;
pub mod remove;
pub mod shape;
pub mod tree;
