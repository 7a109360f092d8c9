//! Tables and counts that are no well formed formula, made from one that is by one wrong field at a time.

use crate::model::face::Call;
use crate::model::limits::{CLAUSES, ENDS_AT, LITERALS, LITERALS_AT, TABLE, VARIABLES};
use crate::rng::Rng;

/// Makes one field of the call's record or of the formula's table wrong. Now and then what comes out is well formed again
/// (a formula that has no clause has no clause end to spoil): the model says which.
pub fn spoil(rng: &mut Rng, call: &mut Call) {
    match rng.below(5) {
        0 => spoil_counts(rng, call),
        1 => spoil_prefix(rng, call),
        2 => spoil_ends(rng, call),
        _ => spoil_literals(rng, call),
    }
}

fn spoil_counts(rng: &mut Rng, call: &mut Call) {
    let counts = &mut call.record.counts;
    let (field, most) = match rng.below(3) {
        0 => (&mut counts.variables, VARIABLES),
        1 => (&mut counts.clauses, CLAUSES),
        _ => (&mut counts.literals, LITERALS),
    };
    *field = match rng.below(10) {
        0 => field.wrapping_sub(1),
        1 => *field + 1,
        2 => most as u64,
        3 => most as u64 + 1,
        4 => u64::MAX,
        5 => *field + (1 << 16),
        6 => *field + (1 << 32),
        7 => *field | 1 << 63,
        8 => 0,
        _ => rng.next() >> rng.below(64),
    };
    if rng.once_in(12) {
        // The other table is hardly ever a formula with these counts.
        call.record.side = 1 - call.record.side;
    }
}

/// The used part of an area and its whole length.
struct Area {
    at: usize,
    used: usize,
    whole: usize,
}

fn spoil_prefix(rng: &mut Rng, call: &mut Call) {
    let used = call.record.counts.variables as usize;
    let area = Area { at: 0, used, whole: VARIABLES };
    let table = &mut call.tables[call.record.side as usize];
    if used == 0 || rng.once_in(6) {
        spoil_unused(rng, table, area);
        return;
    }
    let i = rng.below(used);
    let j = rng.below(used);
    table[i] = match rng.below(8) {
        0 => 0,
        1 => 1,
        2 => 2048 + rng.below(4) as u16,
        3 => u16::MAX - rng.below(2) as u16,
        4 => table[j],
        5 => table[j] ^ 1,
        6 => table[i] ^ 1,
        _ => 2 + rng.below(2046) as u16,
    };
    if rng.once_in(5) {
        // Two entries change places: a clause may lose the existential to the right of its universal.
        table.swap(i, j);
    }
}

fn spoil_ends(rng: &mut Rng, call: &mut Call) {
    let used = call.record.counts.clauses as usize;
    let literals = call.record.counts.literals as u16;
    let area = Area { at: ENDS_AT, used, whole: CLAUSES };
    let table = &mut call.tables[call.record.side as usize];
    if used == 0 || rng.once_in(6) {
        spoil_unused(rng, table, area);
        return;
    }
    let i = ENDS_AT + rng.below(used);
    table[i] = match rng.below(8) {
        0 => table[i].wrapping_sub(1),
        1 => table[i].wrapping_add(1),
        2 => 0,
        3 => literals,
        4 => literals + 1,
        5 => u16::MAX,
        6 => 8192,
        _ => table[ENDS_AT + rng.below(used)],
    };
}

fn spoil_literals(rng: &mut Rng, call: &mut Call) {
    let counts = call.record.counts;
    let used = counts.literals as usize;
    let area = Area { at: LITERALS_AT, used, whole: LITERALS };
    let table = &mut call.tables[call.record.side as usize];
    if used == 0 || rng.once_in(8) {
        spoil_unused(rng, table, area);
        return;
    }
    let place = rng.below(used);
    let i = LITERALS_AT + place;
    match rng.below(10) {
        0 => table[i] = 0,
        1 => table[i] = 1,
        2 => table[i] = 2048 + rng.below(4) as u16,
        3 => table[i] = u16::MAX,
        4 => table[i] ^= 1,
        5 => table[i] = LITERALS_AT as u16 - table[i],
        6 => table[i] = table[LITERALS_AT + rng.below(used)],
        7 if place > 0 => table.swap(i, i - 1),
        8 if place > 0 => table[i] = table[i - 1],
        8 | 7 => table[i] = table[i].wrapping_add(2),
        _ => {
            // A variable of the prefix or one next to it, in either phase.
            let variables = counts.variables as usize;
            table[i] = table[rng.below(variables)] ^ rng.below(4) as u16;
        }
    }
}

fn spoil_unused(rng: &mut Rng, table: &mut [u16], area: Area) {
    if area.used == area.whole {
        return;
    }
    let first = area.at + area.used;
    let last = area.at + area.whole - 1;
    let i = match rng.below(3) {
        0 => first,
        1 => last,
        _ => rng.from(first, last),
    };
    table[i] = if rng.coin() { 1 + rng.below(8) as u16 } else { 1 + rng.below(65_535) as u16 };
}

/// Copies one clause over another of the same length, so that two clauses are equal. No change if there is no such pair.
pub fn make_equal(rng: &mut Rng, call: &mut Call) {
    let clauses = call.record.counts.clauses as usize;
    let table = &mut call.tables[call.record.side as usize];
    let begin = |table: &[u16], i: usize| if i == 0 { 0 } else { table[ENDS_AT + i - 1] as usize };
    let mut pairs = Vec::new();
    for i in 0..clauses {
        for j in 0..clauses {
            let length = |k: usize| table[ENDS_AT + k] as usize - begin(table, k);
            if i != j && length(i) == length(j) {
                pairs.push((i, j));
            }
        }
    }
    if pairs.is_empty() {
        return;
    }
    let &(i, j) = rng.pick(&pairs);
    let length = table[ENDS_AT + i] as usize - begin(table, i);
    let (from, to) = (LITERALS_AT + begin(table, i), LITERALS_AT + begin(table, j));
    table.copy_within(from..from + length, to);
}

/// A table and counts with no formula behind them.
pub fn random_table(rng: &mut Rng, call: &mut Call) {
    let side = call.record.side as usize;
    let range = *rng.pick(&[2, 8, 40, 65_536]);
    let filled = rng.below(TABLE + 1);
    let mut table = vec![0u16; TABLE];
    for n in &mut table[..filled] {
        *n = rng.below(range) as u16;
    }
    call.tables[side] = table;
    let counts = &mut call.record.counts;
    counts.variables = one_below(rng, &[1, 4, 1024, 1025]) as u64;
    counts.clauses = one_below(rng, &[1, 4, 2048, 2049]) as u64;
    counts.literals = one_below(rng, &[1, 4, 8192, 8193]) as u64;
}

fn one_below(rng: &mut Rng, ends: &[usize]) -> usize {
    let end = *rng.pick(ends);
    rng.below(end)
}
