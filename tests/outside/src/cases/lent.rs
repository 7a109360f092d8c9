//! What a caller lends: the formula's table on either side, a spare table that may hold anything, and lengths that are wrong.

use crate::model::face::{Call, Operation, Record};
use crate::model::formula::Formula;
use crate::model::limits::TABLE;
use crate::model::table::{counts, encode};
use crate::rng::Rng;

/// A call on a formula, with nothing in its numbers and bytes yet.
pub fn lend(rng: &mut Rng, operation: Operation, f: &Formula) -> Call {
    let side = rng.below(2);
    let table = encode(f);
    let spare = spare(rng, &table);
    let tables = if side == 0 { [table, spare] } else { [spare, table] };
    Call { operation, record: Record { side: side as u8, counts: counts(f) }, a: 0, b: 0, tables, bytes: Vec::new() }
}

/// A spare table: zero, dirty in a few places, dirty everywhere, or holding the same formula.
pub fn spare(rng: &mut Rng, other: &[u16]) -> Vec<u16> {
    let mut table = vec![0u16; TABLE];
    match rng.below(12) {
        0 => return other.to_vec(),
        1 => table.iter_mut().for_each(|n| *n = rng.next() as u16),
        2 => table[TABLE - 1] = rng.next() as u16,
        3..=6 => {
            for _ in 0..rng.from(1, 20) {
                table[rng.below(4000)] = rng.next() as u16;
            }
        }
        _ => {}
    }
    table
}

/// A length that is not 11,261.
pub fn wrong_length(rng: &mut Rng) -> usize {
    *rng.pick(&[0, 1, 1023, 3070, 8191, TABLE - 1, TABLE - 1, TABLE + 1, TABLE + 1, 11_999, 12_000])
}

/// Makes the first, the second or both tables of a wrong length.
pub fn spoil_lengths(rng: &mut Rng, call: &mut Call) {
    let which = rng.below(3);
    for (i, table) in call.tables.iter_mut().enumerate() {
        if which == i || which == 2 {
            table.resize(wrong_length(rng), 0);
        }
    }
}

pub fn random_bytes(rng: &mut Rng, length: usize) -> Vec<u8> {
    (0..length).map(|_| rng.next() as u8).collect()
}
