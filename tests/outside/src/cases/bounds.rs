//! Formulas and steps whose result stands exactly at a limit or just past it. A small core is made for the step; filler that
//! the step does not touch brings the result to the number wanted.

use super::formulas::of_raw;
use crate::model::entry::{entry, Entry};
use crate::model::formula::{exists, forall, negated, plain, Bound, Clause, Formula, Lit};
use crate::model::steps::whole;
use crate::rng::Rng;

/// What the filler is counted in.
#[derive(Clone, Copy, PartialEq, Eq, Debug)]
pub enum Measure {
    Variables,
    Clauses,
    Literals,
}

fn measured(f: &Formula, measure: Measure) -> usize {
    match measure {
        Measure::Variables => f.prefix.len(),
        Measure::Clauses => f.clauses.len(),
        Measure::Literals => f.literals(),
    }
}

/// A formula that fits and a permitted step of kind 6 or 7 whose whole result measures exactly `total`.
pub fn at_bound(rng: &mut Rng, kind: u32, measure: Measure, total: usize) -> (Formula, Entry) {
    for _ in 0..200 {
        let (core, e) = if kind == 6 { resolve_core(rng, measure) } else { expand_core(rng, measure) };
        let result = whole(&core, e).expect("the core's step is permitted");
        let Some(missing) = total.checked_sub(measured(&result, measure)) else { continue };
        let Some(f) = fill(rng, &core, measure, missing) else { continue };
        let reached = whole(&f, e).is_some_and(|r| measured(&r, measure) == total);
        if f.fits() && reached {
            return (f, e);
        }
    }
    panic!("no formula for kind {kind}, {measure:?} {total}");
}

/// x = 1 with positive and negative clauses over variables 2 to 99, some resolvents equal to others or to clauses that stay.
fn resolve_core(rng: &mut Rng, measure: Measure) -> (Formula, Entry) {
    let (positives, negatives) = (rng.from(3, 9), rng.from(3, 9));
    let most = if measure == Measure::Literals { 40 } else { 3 };
    let mut raw: Vec<Clause> = Vec::new();
    for i in 0..positives + negatives {
        let mut clause: Clause = (0..rng.from(1, most)).map(|_| plain(rng.from(2, 99) as u32)).collect();
        clause.push(if i < positives { plain(1) } else { negated(1) });
        raw.push(clause);
    }
    let mut prefix: Vec<Bound> = (1..=99).map(exists).collect();
    if rng.coin() {
        prefix.push(forall(100));
    }
    let core = of_raw(prefix, &raw);
    let e = entry(6, 1, 0);
    let result = whole(&core, e).expect("all others stand left");
    // Some of the resolvents stand in the formula already.
    let some = rng.below(result.clauses.len().min(4));
    let mut clauses: Vec<Clause> = rng.some(&result.clauses, some);
    clauses.extend(core.clauses);
    (of_raw(core.prefix, &clauses), e)
}

/// u = 1 with universals and existentials to its right.
fn expand_core(rng: &mut Rng, measure: Measure) -> (Formula, Entry) {
    let inner = rng.from(1, 40) as u32;
    let mut prefix: Vec<Bound> = (60..=70).map(exists).collect();
    prefix.push(forall(1));
    if rng.coin() {
        prefix.push(forall(2));
    } else {
        prefix.insert(0, forall(2));
    }
    prefix.extend((3..3 + inner).map(exists));
    let most = if measure == Measure::Literals { 30 } else { 3 };
    let mut raw: Vec<Clause> = Vec::new();
    for _ in 0..rng.from(4, 30) {
        let mut clause: Clause = (0..rng.from(1, most)).map(|_| literal_of(rng, 60, 70)).collect();
        clause.push(literal_of(rng, 3, 2 + inner as usize));
        if rng.once_in(3) {
            clause.push(literal_of(rng, 1, 2));
        }
        raw.push(clause);
    }
    (of_raw(prefix, &raw), entry(7, 1, 0))
}

/// A literal of a variable from low to high.
fn literal_of(rng: &mut Rng, low: usize, high: usize) -> Lit {
    let l = plain(rng.from(low, high) as u32);
    sign(rng, l)
}

fn sign(rng: &mut Rng, l: Lit) -> Lit {
    l ^ rng.below(2) as u32
}

/// The core with filler over variables from 101 on, all left of the core's, so that the step's condition stays as it is.
fn fill(rng: &mut Rng, core: &Formula, measure: Measure, missing: usize) -> Option<Formula> {
    let vars: Vec<u32> = if measure == Measure::Variables {
        // Numbers from the top or from 101 on, so that the free numbers lie low or high.
        let free: Vec<u32> = (101..=1023).chain(71..100).chain(44..60).collect();
        if missing > free.len() {
            return None;
        }
        if rng.coin() {
            free[..missing].to_vec()
        } else {
            rng.some(&free, missing)
        }
    } else {
        (101..=500).collect()
    };
    let mut raw: Vec<Clause> = Vec::new();
    match measure {
        Measure::Variables => {}
        Measure::Clauses => {
            // Pairs of neighbours at growing distance are all different.
            let pairs = (1..vars.len()).flat_map(|d| (0..vars.len() - d).map(move |i| (i, i + d)));
            raw.extend(pairs.take(missing).map(|(i, j)| vec![plain(vars[i]), sign(rng, plain(vars[j]))]));
        }
        Measure::Literals => {
            let mut left = missing;
            while left > 0 {
                let length = left.min(rng.from(100, 400));
                raw.push(vars[..length].iter().map(|&v| sign(rng, plain(v))).collect());
                left -= length;
            }
        }
    }
    let mut prefix: Vec<Bound> = vars.iter().map(|&v| exists(v)).collect();
    prefix.extend(&core.prefix);
    if rng.coin() {
        raw.extend(core.clauses.clone());
    } else {
        raw.splice(0..0, core.clauses.clone());
    }
    Some(of_raw(prefix, &raw))
}
