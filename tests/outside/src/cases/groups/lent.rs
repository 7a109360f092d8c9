//! Calls of write and literals, and calls of all operations with something wrong in what is lent.

use super::shared::{any_call, formula, wide};
use crate::cases::full::full;
use crate::cases::lent::{lend, random_bytes, spoil_lengths};
use crate::cases::malformed;
use crate::model::face::{Call, Operation, OPERATIONS};
use crate::model::writing::write;
use crate::rng::Rng;

pub fn write_buffer(rng: &mut Rng, number: usize) -> Call {
    let f = if number % 25 == 0 { wide(rng) } else { formula(rng) };
    let mut call = lend(rng, Operation::Write, &f);
    let needs = write(&f).len();
    let length = match rng.below(7) {
        0 | 1 => needs,
        2 | 3 => needs - 1,
        4 => needs + rng.below(50),
        5 => rng.below(needs),
        _ => *rng.pick(&[0, 1, 65_536, 70_000]),
    };
    call.bytes = random_bytes(rng, length);
    call
}

pub fn literals(rng: &mut Rng, _: usize) -> Call {
    let f = if rng.once_in(10) { wide(rng) } else { formula(rng) };
    lend(rng, Operation::Literals, &f)
}

pub fn one_field_wrong(rng: &mut Rng, number: usize) -> Call {
    let operation = OPERATIONS[1 + number % 6];
    let mut f = formula(rng);
    if rng.once_in(20) {
        f = wide(rng);
    }
    let mut call = any_call(rng, &f, operation);
    if rng.once_in(8) {
        malformed::make_equal(rng, &mut call);
    } else {
        malformed::spoil(rng, &mut call);
    }
    call
}

pub fn no_formula(rng: &mut Rng, number: usize) -> Call {
    let operation = OPERATIONS[1 + number % 6];
    let f = formula(rng);
    let mut call = any_call(rng, &f, operation);
    malformed::random_table(rng, &mut call);
    call
}

pub fn wrong_lengths(rng: &mut Rng, number: usize) -> Call {
    let operation = OPERATIONS[number % 7];
    let f = formula(rng);
    let mut call = any_call(rng, &f, operation);
    if rng.coin() {
        // LENGTH comes before all else.
        malformed::spoil(rng, &mut call);
    }
    if operation == Operation::Run && rng.coin() {
        call.a = 1001;
    }
    if operation == Operation::Reason && rng.coin() {
        call.b = 1001;
    }
    spoil_lengths(rng, &mut call);
    call
}

/// Each operation and each kind of step on tables that are full, well formed and with one field wrong.
pub fn full_tables(rng: &mut Rng, number: usize) -> Call {
    let f = full(rng);
    let operation = *rng.pick(&[Operation::Write, Operation::Literals, Operation::Step, Operation::Step, Operation::Replay]);
    let mut call = any_call(rng, &f, operation);
    if number % 4 == 0 {
        malformed::spoil(rng, &mut call);
    }
    call
}
