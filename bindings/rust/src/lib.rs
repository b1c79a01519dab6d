//! A persistent map from DICOM tags to value positions, in words that the caller lends: a safe
//! wrapper of Foamcorbel's C functions.
//!
//! The map itself is written in Rattle and proved; this crate declares its C functions and turns
//! their results into Rust's. Each state of a header is a version, held by a [`Slot`] of an
//! [`Arena`]. No call changes a version that is there: [`insert`](Arena::insert) and
//! [`remove`](Arena::remove) hand out a slot for a new one. There is no heap and no panic.
//!
//! ```
//! use foamcorbel::{tag, Arena, Refusal};
//!
//! let mut words = [0; Arena::words_for(100, 8)];
//! let mut arena = Arena::format(&mut words, 100, 8)?;
//! let empty = arena.new_version()?;
//! let received = arena.insert(empty, tag(0x0010, 0x0020), 640)?;
//! let imported = arena.insert(received, tag(0x0010, 0x0020), 7000)?;
//!
//! assert_eq!(arena.get(imported, tag(0x0010, 0x0020)), Ok(7000));
//! assert_eq!(arena.get(received, tag(0x0010, 0x0020)), Ok(640));
//! assert_eq!(arena.get(empty, tag(0x0010, 0x0020)), Err(Refusal::Absent));
//! # Ok::<(), Refusal>(())
//! ```
//!
//! Each call first tests that the arena is sound, so that any words may be lent. That takes time in
//! proportion to their number, and a step of a [`Range`] or of [`Differences`] is such a call too.
//!
//! The build looks for `libfoamcorbel.a` in the folder that the variable `FOAMCORBEL_LIB_DIR`
//! names, and without it where `rt lib` writes it in the repository's `crates/foamcorbel`.
#![no_std]
#![deny(missing_docs)]

mod arena;
mod differences;
mod range;
mod reading;
mod refusal;
mod sys;

pub use arena::{tag, Arena, Entry, Slot, MAX_NODES, MAX_SLOTS};
pub use differences::{Difference, Differences};
pub use range::Range;
pub use refusal::Refusal;
