//! The independent model: document 01, and of document 02 what has landed, written down a second time, in plain Rust over
//! plain lists, with no limits inside.
//! Nothing here is taken from the proved code. Each file holds one subject of the document.

pub mod choice;
pub mod entry;
pub mod face;
pub mod formula;
pub mod limits;
pub mod numeral;
pub mod plain_choice;
pub mod reading;
pub mod reason;
pub mod run;
pub mod steps;
pub mod table;
pub mod tidy;
pub mod truth;
pub mod writing;
