//! The seven steps. `whole` gives the whole result of a permitted step, with no limit; `step` is the step as called by its
//! 32 bits, with its refusals in their order: BAD ENTRY, NOT PERMITTED, NO ROOM.

mod assign;
mod equality;
mod expand;
pub mod resolve;
mod subsume;

use super::entry::{self, Entry};
use super::formula::Formula;
use super::limits::answer;

/// The whole result, or nothing if the step's condition fails or its index or variable isn't there.
pub fn whole(f: &Formula, e: Entry) -> Option<Formula> {
    let (a, b) = (e.a as usize, e.b as usize);
    match e.kind {
        1 => assign::unit(f, a),
        2 => assign::pure(f, e.a),
        3 => subsume::subsume(f, a, b),
        4 => subsume::strengthen(f, a, b),
        5 => equality::equality(f, a, b),
        6 => resolve::resolve(f, e.a),
        7 => expand::expand(f, e.a),
        _ => unreachable!("the kind is 1 to 7"),
    }
}

/// The step called by its entry: its result, or the number of its refusal.
pub fn step(f: &Formula, bits: u32) -> Result<Formula, u8> {
    let e = entry::decode(bits).ok_or(answer::BAD_ENTRY)?;
    let result = whole(f, e).ok_or(answer::NOT_PERMITTED)?;
    if result.fits() {
        Ok(result)
    } else {
        Err(answer::NO_ROOM)
    }
}
