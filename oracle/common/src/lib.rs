//! What the comparing programs share.
#![forbid(unsafe_code)]

pub mod keys;
pub mod quiet;
pub mod random;
