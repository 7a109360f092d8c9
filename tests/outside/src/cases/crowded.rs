//! Tables in which x = 100 stands in hundreds of clauses of either phase. Of their pairs, up to a million, nearly all come to
//! nothing: both phases of another variable meet, or an equal clause is there already.

use super::formulas::of_raw;
use crate::model::formula::{exists, negated, plain, Bound, Clause, Formula};
use crate::rng::Rng;

const X: u32 = 100;

/// Variables 1 to `last`, all existential.
fn prefix(last: u32) -> Vec<Bound> {
    (1..=last).map(exists).collect()
}

/// Variable 200 stands plain in the positive clauses and negated in the negative ones, so that their resolvents have both
/// phases. `free` clauses of either phase lack it and have resolvents.
pub fn clashing(rng: &mut Rng, each: usize, free: usize) -> Formula {
    let mut raw: Vec<Clause> = Vec::new();
    for phase in 0..2 {
        for i in 0..each {
            let mut clause: Clause = vec![plain(X) + phase, plain(rng.from(1, 99) as u32)];
            if i >= free {
                clause.push(plain(200) + phase);
                clause.push(plain(rng.from(101, 199) as u32));
            }
            raw.push(clause);
        }
    }
    rng.shuffle(&mut raw);
    of_raw(prefix(200), &raw)
}

/// All subsets of the variables 1 to `vars`, with x and with its opposite: the unions are subsets again. With `long` more
/// literals in one clause of either phase.
pub fn unions(rng: &mut Rng, vars: u32, long: usize) -> Formula {
    let mut raw: Vec<Clause> = Vec::new();
    for subset in 0..1u32 << vars {
        for phase in 0..2 {
            let mut clause: Clause = (1..=vars).filter(|v| subset >> (v - 1) & 1 == 1).map(plain).collect();
            clause.push(plain(X) + phase);
            raw.push(clause);
        }
    }
    for phase in 0..2 {
        let mut clause: Clause = (0..long).map(|_| negated(rng.from(101, 400) as u32)).collect();
        clause.push(plain(X) + phase);
        raw.push(clause);
    }
    rng.shuffle(&mut raw);
    of_raw(prefix(400), &raw)
}
