//! The drivers: they start a program, give it what the cases say, and compare what it gives back with the model.

pub mod compare;
mod coverage;
pub mod prep;
mod probe;
mod shown;
pub mod stand_in;
