//! Calls of step.

use super::shared::{any_call, formula, step_entry, wide};
use crate::cases::bounds::{self, Measure};
use crate::cases::crowded::{clashing, unions};
use crate::cases::entries;
use crate::cases::folding::{expand_folding, resolve_folding};
use crate::cases::lent::lend;
use crate::model::entry::{decode, entry, Entry};
use crate::model::face::{Call, Operation};
use crate::model::formula::Formula;
use crate::rng::Rng;

/// A permitted entry of the kind that the number asks for, on a formula drawn until there is one.
pub fn step_permitted(rng: &mut Rng, number: usize) -> Call {
    let kind = 1 + number as u32 % 7;
    loop {
        let f = formula(rng);
        let list = entries::permitted(&f, kind);
        // Dropping an absent variable is the dullest of kind 2, 6 and 7: draw again most times.
        let interesting: Vec<Entry> = list.iter().copied().filter(|e| kind == 1 || uses(&f, *e)).collect();
        let list = if interesting.is_empty() && !rng.once_in(40) { interesting } else { list };
        if !list.is_empty() {
            let mut call = lend(rng, Operation::Step, &f);
            call.a = rng.pick(&list).bits() as u64;
            return call;
        }
    }
}

fn uses(f: &Formula, e: Entry) -> bool {
    matches!(e.kind, 3..=5) || f.clauses.iter().any(|c| c.iter().any(|&l| l / 2 == e.a))
}

/// Any entry of a kind, or a permitted one with one thing about it changed.
pub fn step_near(rng: &mut Rng, number: usize) -> Call {
    let kind = 1 + number as u32 % 7;
    if number % 2 == 0 {
        let f = formula(rng);
        let mut call = lend(rng, Operation::Step, &f);
        call.a = entries::near(rng, &f, kind).bits() as u64;
        return call;
    }
    let mut call = step_permitted(rng, kind as usize - 1);
    let good = decode(call.a as u32).expect("an entry");
    call.a = entries::beside(rng, good).bits() as u64;
    call
}

pub fn step_bad(rng: &mut Rng, _: usize) -> Call {
    let f = formula(rng);
    let good = step_entry(rng, &f);
    let mut call = lend(rng, Operation::Step, &f);
    call.a = entries::bad(rng, good) as u64;
    call
}

pub fn step_wide(rng: &mut Rng, _: usize) -> Call {
    let f = wide(rng);
    any_call(rng, &f, Operation::Step)
}

/// Results that just fit, and that just don't. An expansion gives its copies numbers that u does not set free, so with
/// 1,023 variables in the result one copy is numbered over 1,023.
pub const BOUNDS: [(u32, Measure, usize); 18] = [
    (6, Measure::Clauses, 2046),
    (6, Measure::Clauses, 2047),
    (6, Measure::Clauses, 2048),
    (6, Measure::Clauses, 2050),
    (6, Measure::Literals, 8190),
    (6, Measure::Literals, 8191),
    (6, Measure::Literals, 8192),
    (6, Measure::Literals, 8300),
    (7, Measure::Variables, 1021),
    (7, Measure::Variables, 1022),
    (7, Measure::Variables, 1023),
    (7, Measure::Variables, 1024),
    (7, Measure::Clauses, 2046),
    (7, Measure::Clauses, 2047),
    (7, Measure::Clauses, 2048),
    (7, Measure::Literals, 8190),
    (7, Measure::Literals, 8191),
    (7, Measure::Literals, 8192),
];

pub fn step_bound(rng: &mut Rng, number: usize) -> Call {
    let (kind, measure, total) = BOUNDS[number % BOUNDS.len()];
    let (f, e) = bounds::at_bound(rng, kind, measure, total);
    let mut call = lend(rng, Operation::Step, &f);
    call.a = e.bits() as u64;
    call
}

pub fn step_folding(rng: &mut Rng, number: usize) -> Call {
    let f = folding(rng, number);
    let mut call = lend(rng, Operation::Step, &f);
    let e = if number % 2 == 0 { entry(6, 100, 0) } else { entry(7, 1, 0) };
    call.a = e.bits() as u64;
    call
}

/// Even numbers: resolvents that are equal; odd ones: halves of an expansion with equal clauses, up to more than 2,047 in all.
fn folding(rng: &mut Rng, number: usize) -> Formula {
    if number % 2 == 0 {
        let (outer, universals, each) = (rng.from(1, 40), rng.from(2, 12), rng.from(2, 60));
        resolve_folding(rng, outer, universals, each)
    } else {
        let inner = rng.from(3, 60);
        let pairs = if rng.coin() { rng.from(600, 800) } else { rng.from(1, 100) };
        expand_folding(rng, inner, pairs)
    }
}

/// Step 6 where nearly all of very many pairs come to nothing.
pub fn step_crowded(rng: &mut Rng, number: usize) -> Call {
    let f = match number % 3 {
        0 => {
            // Each free clause has resolvents with all clauses of the other phase: three of them can be too many for a table.
            let (each, free) = (rng.from(100, 1000), rng.below(4));
            clashing(rng, each, free)
        }
        1 => {
            let vars = rng.from(6, 9) as u32;
            unions(rng, vars, 0)
        }
        _ => {
            let (vars, long) = (rng.from(2, 5) as u32, rng.from(60, 110));
            unions(rng, vars, long)
        }
    };
    let mut call = lend(rng, Operation::Step, &f);
    call.a = entry(6, 100, 0).bits() as u64;
    call
}
