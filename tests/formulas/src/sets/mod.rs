//! The sets that can be written.

pub mod bench;
pub mod public;
pub mod published;
pub mod solver;
