//! What the groups have in common: the formulas they draw, and calls of any operation on them.

use crate::cases::entries;
use crate::cases::formulas::{self, MIDDLE, SMALL, WIDE};
use crate::cases::interlock::interlock;
use crate::cases::lent::{lend, random_bytes};
use crate::model::entry::Entry;
use crate::model::face::{Call, Operation};
use crate::model::formula::Formula;
use crate::model::writing::write;
use crate::rng::Rng;

/// Most are small: there the steps meet each other.
pub fn formula(rng: &mut Rng) -> Formula {
    match rng.below(8) {
        0 => {
            let (readings, drives, gates, rules) = (rng.below(4), rng.below(4), rng.below(5), rng.below(5));
            if readings + drives == 0 {
                return Formula::default();
            }
            interlock(rng, readings, drives, gates, rules)
        }
        1 => formulas::hard(rng, 7),
        2..=4 => formulas::random(rng, SMALL),
        _ => formulas::random(rng, MIDDLE),
    }
}

pub fn wide(rng: &mut Rng) -> Formula {
    formulas::random(rng, WIDE)
}

/// An operation on a formula, with numbers and bytes as such a call has them.
pub fn any_call(rng: &mut Rng, f: &Formula, operation: Operation) -> Call {
    let mut call = lend(rng, operation, f);
    match operation {
        Operation::Read => call.bytes = write(f),
        Operation::Write => {
            let length = write(f).len() + 5 - rng.below(10);
            call.bytes = random_bytes(rng, length);
        }
        Operation::Literals => {}
        Operation::Step => call.a = step_entry(rng, f).bits() as u64,
        Operation::Run => {
            call.a = allowance(rng);
            call.b = rng.below(10) as u64;
            let length = rng.below(50);
            call.bytes = random_bytes(rng, length);
        }
        Operation::Replay => {
            let length = if rng.once_in(4) { rng.below(12) } else { 0 };
            call.bytes = random_bytes(rng, length);
            if length == 0 && rng.coin() {
                call.bytes = step_entry(rng, f).bytes().to_vec();
            }
        }
        Operation::Reason => {
            // Now and then one that is not there: MALFORMED comes before NOT PERMITTED.
            call.a = if f.prefix.is_empty() || rng.once_in(6) { rng.below(1100) as u64 } else { rng.pick(&f.prefix).var as u64 };
            call.b = if rng.once_in(6) { 1001 } else { allowance(rng) };
        }
    }
    call
}

pub fn allowance(rng: &mut Rng) -> u64 {
    *rng.pick(&[0, 0, 0, 1, 2, 5, 20, 100, 999, 1000])
}

/// A permitted entry of some kind if there is one, else one that is not.
pub fn step_entry(rng: &mut Rng, f: &Formula) -> Entry {
    let kinds = rng.some(&[1, 2, 3, 4, 5, 6, 7], 7);
    for &kind in &kinds {
        let list = entries::permitted(f, kind);
        if !list.is_empty() {
            return *rng.pick(&list);
        }
    }
    entries::near(rng, f, kinds[0])
}
