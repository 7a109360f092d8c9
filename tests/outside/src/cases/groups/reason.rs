//! Calls of reason.

use super::shared::{allowance, formula, wide};
use crate::cases::full::full;
use crate::cases::interlock::interlock;
use crate::cases::lent::{lend, spoil_lengths};
use crate::cases::regular::{regular, regular_expandable, regular_mixed};
use crate::cases::tight::{self, renumbered, rise_of, ASKED};
use crate::cases::{formulas, heavy, malformed, room};
use crate::model::choice::{next_light, verdict};
use crate::model::face::{Call, Operation};
use crate::model::formula::Formula;
use crate::model::reason::{reason, Reason};
use crate::model::run::run;
use crate::model::steps::whole;
use crate::rng::Rng;

fn reason_call(rng: &mut Rng, f: &Formula, variable: u64, allowance: u64) -> Call {
    let mut call = lend(rng, Operation::Reason, f);
    call.a = variable;
    call.b = allowance;
    call
}

/// A variable of the prefix, if there is one.
fn of_prefix(rng: &mut Rng, f: &Formula) -> u64 {
    if f.prefix.is_empty() {
        return 1;
    }
    rng.pick(&f.prefix).var as u64
}

/// The same, a universal as often as an existential.
fn of_either(rng: &mut Rng, f: &Formula) -> u64 {
    let universals: Vec<u64> = f.prefix.iter().filter(|b| !b.is_existential()).map(|b| b.var as u64).collect();
    if universals.is_empty() || rng.coin() {
        return of_prefix(rng, f);
    }
    *rng.pick(&universals)
}

/// A number that no variable has, or that looks like one of the prefix when it is cut to fewer bits.
fn no_variable(rng: &mut Rng, f: &Formula) -> u64 {
    let v = of_prefix(rng, f);
    let absent = (1..=1023).find(|&n| f.prefix.iter().all(|b| b.var as u64 != n)).unwrap_or(0);
    *rng.pick(&[0, absent, absent, 1023, 1024, 2047, 2 * v, v + 1024, v + (1 << 16), v + (1 << 32), v + (1 << 63), u64::MAX])
}

/// Steps of kinds 1 to 5 as a run takes them, until there is none or a verdict stands.
fn settled(mut f: Formula) -> Formula {
    while verdict(&f).is_none() {
        let Some(e) = next_light(&f) else { break };
        f = whole(&f, e).expect("a candidate is permitted");
    }
    f
}

/// Small formulas have at most so many variables: with one call more, each case asks for one that is not there.
pub const PLACES: usize = 9;

/// One small formula for each `PLACES` calls, and each of its variables: as it is, with kinds 1 to 5 done, or as a run leaves it.
pub fn reason_every(rng: &mut Rng, number: usize) -> Call {
    let allowance = allowance(rng);
    let mut f = Formula::default();
    for _ in 0..*rng.pick(&[1, 30, 30, 30]) {
        let drawn = match rng.below(5) {
            0 => formulas::random(rng, formulas::SMALL),
            1 | 2 => regular_small(rng),
            _ => formulas::hard(rng, PLACES - 1),
        };
        f = match rng.below(5) {
            0 => drawn,
            1..=3 => settled(drawn),
            _ => run(&drawn, allowance, 1000, 4000).formula,
        };
        if verdict(&f).is_none() {
            break;
        }
    }
    let place = number % PLACES;
    // What is lent beside the formula differs from call to call.
    (0..place).for_each(|_| {
        rng.next();
    });
    let variable = f.prefix.get(place).map_or_else(|| no_variable(rng, &f), |b| b.var as u64);
    reason_call(rng, &f, variable, allowance)
}

/// Universals and existentials in turn, in clauses of three.
fn regular_small(rng: &mut Rng) -> Formula {
    let prefix = formulas::prefix(rng, 8, 12);
    let vars: Vec<u32> = prefix.iter().map(|b| b.var).collect();
    let raw = regular(rng, &vars, 3, 3);
    let mut f = formulas::of_raw(prefix, &raw);
    f.clauses.retain(|c| c.len() > 1);
    f
}

/// A random formula, after some steps of a run; most times one with no verdict yet.
pub fn reason_random(rng: &mut Rng, _: usize) -> Call {
    let allowance = allowance(rng);
    let mut f = Formula::default();
    for _ in 0..*rng.pick(&[1, 20, 20, 20]) {
        let (drawn, steps) = (formula(rng), rng.below(8) as u64);
        f = run(&drawn, allowance, steps, 4000).formula;
        if verdict(&f).is_none() {
            break;
        }
    }
    let variable = if rng.once_in(8) { no_variable(rng, &f) } else { of_either(rng, &f) };
    reason_call(rng, &f, variable, allowance)
}

fn larger(rng: &mut Rng) -> Formula {
    match rng.below(5) {
        0 => {
            let variables = rng.from(10, 30);
            formulas::hard(rng, variables)
        }
        1 => regular_mixed(rng),
        2 => regular_expandable(rng),
        3 => wide(rng),
        _ => {
            let (readings, drives, gates, rules) = (rng.from(3, 10), rng.from(3, 12), rng.from(5, 30), rng.from(5, 30));
            interlock(rng, readings, drives, gates, rules)
        }
    }
}

/// What a run leaves, asked about with the run's allowance or another; now and then only kinds 1 to 5 are done.
pub fn reason_left(rng: &mut Rng, number: usize) -> Call {
    let allowance = allowance(rng);
    let mut f = Formula::default();
    for _ in 0..20 {
        let drawn = larger(rng);
        f = if number % 4 == 0 { settled(drawn) } else { run(&drawn, allowance.min(20), 1000, 4000).formula };
        if verdict(&f).is_none() {
            break;
        }
    }
    let variable = of_either(rng, &f);
    reason_call(rng, &f, variable, allowance)
}

/// The allowance is exactly what the expansion of the variable needs, or one less, or one more.
pub fn reason_exact(rng: &mut Rng, _: usize) -> Call {
    for _ in 0..200 {
        let f = settled(if rng.coin() { regular_expandable(rng) } else { larger(rng) });
        let weighed = f.prefix.iter().filter_map(|b| match reason(&f, b.var, 0) {
            Some(Reason::TooHeavy { weight, after }) if after - weight <= 1000 => Some((b.var, after - weight)),
            _ => None,
        });
        let weighed: Vec<(u32, u64)> = weighed.collect();
        if !weighed.is_empty() {
            let &(variable, rise) = rng.pick(&weighed);
            let allowance = (rise + rng.below(3) as u64 - 1).min(1000);
            return reason_call(rng, &f, variable as u64, allowance);
        }
    }
    reason_random(rng, 0)
}

/// Allowances and variables that are refused or just not, and tables that are no formula, at once: LENGTH and MALFORMED come
/// before ALLOWANCE, and that before NOT PERMITTED.
pub fn reason_refused(rng: &mut Rng, _: usize) -> Call {
    let f = formula(rng);
    let allowance = *rng.pick(&[0, 1, 999, 1000, 1001, 1002, 65_536, 1 << 32, 1 << 63, u64::MAX]);
    let variable = if rng.coin() { no_variable(rng, &f) } else { of_prefix(rng, &f) };
    let mut call = reason_call(rng, &f, variable, allowance);
    if rng.once_in(6) {
        malformed::spoil(rng, &mut call);
    }
    if rng.once_in(8) {
        spoil_lengths(rng, &mut call);
    }
    call
}

/// Results that just fit, and that just don't: the numbers that stand in `tight`'s formulas, from one below a limit to well
/// past it, and the two limits of clauses and literals together.
pub const LIMITS: usize = 26;

pub fn reason_limit(rng: &mut Rng, number: usize) -> Call {
    let groups = rng.from(2, 60);
    let most = 1023 - 3 * groups;
    let number = number % LIMITS;
    let f = match number {
        0 => tight::expand_from_variables(groups, most - 1),
        1 => tight::expand_from_variables(groups, most),
        2 => tight::expand_from_variables(groups, most + 1),
        3 => tight::expand_from_variables(groups, most + 2),
        4 => tight::expand_from_variables(groups, 1023),
        5..=8 => tight::expand_to_clauses(rng, groups, 2041 + number),
        9..=12 => tight::expand_to_literals(rng, groups, 8181 + number),
        13 => tight::expand_to_both(rng, groups, 2047, 8191),
        14 => tight::expand_to_both(rng, groups, 2047, 8193),
        15 => tight::expand_to_both(rng, groups, 2048, 8192),
        16 => tight::expand_to_both(rng, groups, 2049, 8193),
        17..=20 => tight::resolve_to_clauses(rng, 2028 + number),
        21..=24 => tight::resolve_to_literals(rng, 8168 + number),
        _ => return reason_of_room(rng),
    };
    let (f, asked) = renumbered(rng, &f);
    // Expanding counts with just this allowance, and with 1,000.
    let allowance = *rng.pick(&[rise_of(groups), rise_of(groups), 1000]);
    reason_call(rng, &f, asked as u64, allowance)
}

/// A variable of a formula that a run leaves because only room is missing.
fn reason_of_room(rng: &mut Rng) -> Call {
    let f = room::expand_out_of_room(rng, true);
    let f = run(&f, 1000, 10, 400).formula;
    let variable = of_prefix(rng, &f);
    reason_call(rng, &f, variable, 1000)
}

/// Results far larger than a table, and results where most resolvents are equal.
pub const HEAVY: usize = 24;

pub fn reason_heavy(rng: &mut Rng, number: usize) -> Call {
    let f = match number {
        0..=3 => {
            let (vars, each) = (rng.from(25, 45), rng.from(100, 300));
            heavy::apart(rng, vars, each)
        }
        4 => heavy::apart(rng, 45, 990),
        5..=9 => {
            let (vars, positives, negatives) = (rng.from(22, 40), rng.from(60, 110), rng.from(60, 110));
            heavy::mixed(rng, vars, 2, positives, negatives)
        }
        10..=14 => {
            let (vars, positives, negatives) = (rng.from(12, 20), rng.from(60, 110), rng.from(60, 110));
            heavy::mixed(rng, vars, 3, positives, negatives)
        }
        15 => heavy::mixed(rng, 45, 2, 480, 500),
        16 => heavy::mixed(rng, 20, 3, 560, 570),
        17 => heavy::folded(rng, 46, 4, 12),
        18 => heavy::folded(rng, 32, 3, 8),
        19 => heavy::folded(rng, 60, 3, 8),
        _ => {
            let (outer, each) = (rng.from(20, 44), rng.from(5, 14));
            heavy::folded(rng, outer, 4, each)
        }
    };
    let f = settled(f);
    let asked = if f.prefix.iter().any(|b| b.var == ASKED) && !rng.once_in(8) { ASKED as u64 } else { of_prefix(rng, &f) };
    reason_call(rng, &f, asked, 0)
}

pub fn reason_full(rng: &mut Rng, _: usize) -> Call {
    let f = full(rng);
    let f = if rng.coin() { run(&f, 0, u64::MAX, 70_000).formula } else { f };
    let variable = of_either(rng, &f);
    let allowance = allowance(rng);
    reason_call(rng, &f, variable, allowance)
}
