//! Calls of run.

use super::shared::{allowance, formula, wide};
use crate::cases::folding::{expand_folding, resolve_folding};
use crate::cases::full::full;
use crate::cases::interlock::interlock;
use crate::cases::lent::{lend, random_bytes};
use crate::cases::long_run::long_run;
use crate::cases::regular::{expandable, regular_expandable, regular_mixed};
use crate::cases::{formulas, malformed, room};
use crate::model::entry::entry;
use crate::model::face::{Call, Operation};
use crate::model::formula::Formula;
use crate::model::run::run;
use crate::model::steps::whole;
use crate::rng::Rng;

fn run_call(rng: &mut Rng, f: &Formula, allowance: u64, limit: u64, log: usize) -> Call {
    let mut call = lend(rng, Operation::Run, f);
    call.a = allowance;
    call.b = limit;
    call.bytes = random_bytes(rng, log);
    call
}

pub fn run_random(rng: &mut Rng, _: usize) -> Call {
    let f = formula(rng);
    let allowance = allowance(rng);
    let limit = *rng.pick(&[1000, 1000, u64::MAX, 1 << 40]);
    run_call(rng, &f, allowance, limit, 2000)
}

/// Formulas that no kind finds easy, so that all kinds are taken and all outcomes reached.
pub fn run_hard(rng: &mut Rng, number: usize) -> Call {
    let variables = if number % 5 == 0 { rng.from(15, 30) } else { rng.from(4, 14) };
    let f = formulas::hard(rng, variables);
    let allowance = allowance(rng);
    run_call(rng, &f, allowance, 1000, 4000)
}

pub fn run_folding(rng: &mut Rng, number: usize) -> Call {
    let f = if number % 2 == 0 {
        let (outer, universals, each) = (rng.from(1, 12), rng.from(4, 12), rng.from(2, 50));
        resolve_folding(rng, outer, universals, each)
    } else {
        let (inner, pairs) = (rng.from(3, 14), rng.from(3, 60));
        expand_folding(rng, inner, pairs)
    };
    let allowance = allowance(rng);
    run_call(rng, &f, allowance, 1000, 4000)
}

/// Every variable stands as often in each phase, universals among them: little to do but expand.
pub fn run_regular(rng: &mut Rng, number: usize) -> Call {
    let f = if number % 2 == 0 { regular_mixed(rng) } else { regular_expandable(rng) };
    let allowance = allowance(rng);
    run_call(rng, &f, allowance, 1000, 4000)
}

pub fn run_interlock(rng: &mut Rng, _: usize) -> Call {
    let (readings, drives, gates, rules) = (rng.from(1, 8), rng.from(1, 8), rng.from(0, 20), rng.from(1, 20));
    let f = interlock(rng, readings, drives, gates, rules);
    let allowance = allowance(rng);
    run_call(rng, &f, allowance, 5000, 8000)
}

/// The limit or the log is at, before or after the number of steps the run takes.
pub fn run_short(rng: &mut Rng, _: usize) -> Call {
    let f = if rng.coin() { formula(rng) } else { formulas::hard(rng, 8) };
    let allowance = allowance(rng);
    let steps = run(&f, allowance, 1000, 4000).steps;
    let near = |rng: &mut Rng, n: u64| match rng.below(6) {
        0 => 0,
        1 => 1,
        2 => n.saturating_sub(1),
        3 => n,
        4 => n + 1,
        _ => rng.below(n as usize + 3) as u64,
    };
    let limit = if rng.coin() { near(rng, steps) } else { 1000 };
    let log = if rng.coin() { near(rng, steps) * 4 + rng.below(4) as u64 } else { 4000 };
    let log = if rng.once_in(4) { log.saturating_sub(1) } else { log };
    run_call(rng, &f, allowance, limit, log as usize)
}

pub fn run_wide(rng: &mut Rng, number: usize) -> Call {
    let f = if number % 4 == 0 {
        let (readings, drives, gates, rules) = (rng.from(5, 20), rng.from(5, 20), rng.from(20, 80), rng.from(10, 60));
        interlock(rng, readings, drives, gates, rules)
    } else {
        wide(rng)
    };
    let allowance = allowance(rng).min(20);
    run_call(rng, &f, allowance, 1000, 4000)
}

pub fn run_allowance(rng: &mut Rng, _: usize) -> Call {
    let f = formula(rng);
    let allowance = *rng.pick(&[0, 1, 999, 1000, 1001, 1002, 65_536, 1 << 32, 1 << 63, u64::MAX]);
    let limit = rng.below(30) as u64;
    let mut call = run_call(rng, &f, allowance, limit, 100);
    if rng.once_in(6) {
        // MALFORMED comes before ALLOWANCE.
        malformed::spoil(rng, &mut call);
    }
    call
}

/// OUT OF ROOM for each limit, and the same formulas with just enough room.
pub fn run_room(rng: &mut Rng, number: usize) -> Call {
    let (f, allowance, limit) = match number {
        0 => (room::expand_out_of_room(rng, true), 1000, 10),
        1 => (room::expand_out_of_room(rng, false), 1000, 1),
        2 => (room::resolve_out_of_clauses(rng, 2047), 0, 10),
        3 => (room::resolve_out_of_clauses(rng, 2046), 0, 10),
        4 => (room::resolve_out_of_literals(rng, 8191), 0, 10),
        5 => (room::resolve_out_of_literals(rng, 8190), 0, 3),
        6 => (room::expand_out_of_room(rng, true), 0, 10),
        7 => (room::resolve_out_of_clauses(rng, 2047), 1000, 1),
        _ => (room::best_does_not_fit(rng), 0, 10),
    };
    run_call(rng, &f, allowance, limit, 400)
}

/// With a large allowance the formula grows step by step until it has no room.
pub fn run_growing(rng: &mut Rng, _: usize) -> Call {
    let (outer, universals, inner) = (rng.from(650, 940), rng.from(3, 7), rng.from(5, 14));
    let f = expandable(rng, outer, universals, inner);
    let allowance = *rng.pick(&[600, 999, 1000, 1000]);
    run_call(rng, &f, allowance, 40, 70_000)
}

pub fn run_full(rng: &mut Rng, _: usize) -> Call {
    let f = full(rng);
    let allowance = allowance(rng);
    let limit = *rng.pick(&[1, 5, 100, u64::MAX]);
    run_call(rng, &f, allowance, limit, 8000)
}

/// Some thousand steps, with a log that is long enough for all.
pub fn run_long(rng: &mut Rng, _: usize) -> Call {
    run_call(rng, &long_run(), 0, u64::MAX, 70_000)
}

/// The allowance is exactly what the cheapest expansion needs where nothing else is left, or one less, or one more.
pub fn run_exact(rng: &mut Rng, _: usize) -> Call {
    for _ in 0..50 {
        let f = match rng.below(3) {
            0 => regular_mixed(rng),
            1 => formulas::hard(rng, 9),
            _ => regular_expandable(rng),
        };
        if let Some(rise) = least_rise(&run(&f, 0, 1000, 4000).formula) {
            let allowance = (rise + rng.below(3) as u64).saturating_sub(1);
            return run_call(rng, &f, allowance.min(1000), 1000, 4000);
        }
    }
    run_random(rng, 0)
}

/// By how much the weight rises with the cheapest expansion of a formula that no verdict stands on.
fn least_rise(f: &Formula) -> Option<u64> {
    if f.clauses.is_empty() || f.clauses.iter().any(|c| c.is_empty()) {
        return None;
    }
    let weights = f.prefix.iter().filter_map(|b| whole(f, entry(7, b.var, 0))).map(|result| result.weight() as u64);
    weights.min()?.checked_sub(f.weight() as u64)
}
