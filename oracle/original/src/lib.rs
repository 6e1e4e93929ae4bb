//! The original's packed ring behind the records of a trace.

pub mod leaf;
pub mod machine;
pub mod virtq;

pub use machine::{Machine, Outside};
