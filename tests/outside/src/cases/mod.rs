//! The cases: groups of calls, each made from a seed, its group's name and its number, so that any one can be made again.

pub mod bounds;
pub mod crowded;
pub mod entries;
pub mod folding;
pub mod formulas;
pub mod full;
pub mod groups;
pub mod heavy;
pub mod interlock;
pub mod lent;
pub mod long_run;
pub mod malformed;
pub mod regular;
pub mod room;
pub mod text_edges;
pub mod texts;
pub mod tight;
