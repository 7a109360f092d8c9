//! Formulas where many clauses of a step's result are equal: what is counted, and what fits, is known only after equal ones
//! are dropped.

use super::formulas::of_raw;
use crate::model::formula::{exists, forall, negated, plain, Bound, Clause, Formula, Lit};
use crate::rng::Rng;

/// Existentials 1 to `outer`, then universals, then x = 100. The clauses with x differ by their universals, which their
/// resolvents lose: of `each` times `each` resolvents few are different.
pub fn resolve_folding(rng: &mut Rng, outer: usize, universals: usize, each: usize) -> Formula {
    let mut prefix: Vec<Bound> = (1..=outer as u32).map(exists).collect();
    prefix.extend((50..50 + universals as u32).map(forall));
    prefix.push(exists(100));
    let mut raw: Vec<Clause> = Vec::new();
    for i in 0..2 * each {
        let mut clause: Clause = vec![plain(100) + i as u32 % 2, plain(rng.from(1, outer) as u32)];
        // Positive clauses take the even universals, negative ones the odd: no resolvent has both phases of one.
        for u in (0..universals).filter(|u| u % 2 == i % 2) {
            match rng.below(3) {
                0 => clause.push(plain(50 + u as u32)),
                1 => clause.push(negated(50 + u as u32)),
                _ => {}
            }
        }
        raw.push(clause);
    }
    // The outer existentials in their other phase.
    for v in 1..=outer as u32 {
        raw.push(vec![negated(v), literal(rng, outer)]);
        raw.push(vec![negated(v), literal(rng, outer), literal(rng, outer)]);
    }
    rng.shuffle(&mut raw);
    of_raw(prefix, &raw)
}

/// Universal u = 1 with existentials to its right; `pairs` clauses stand with u in a phase and without u, so that one half of
/// the expansion holds each twice.
pub fn expand_folding(rng: &mut Rng, inner: usize, pairs: usize) -> Formula {
    let mut prefix = vec![forall(1)];
    prefix.extend((2..2 + inner as u32).map(exists));
    let mut raw: Vec<Clause> = Vec::new();
    for i in 0..pairs {
        // Different pairs of variables give different clauses.
        let (a, b) = (2 + i % inner, 2 + (i + 1 + i / inner) % inner);
        let clause: Clause = vec![plain(a as u32), negated(b as u32)];
        let mut longer = clause.clone();
        longer.push(plain(1) + rng.below(2) as u32);
        raw.push(clause);
        raw.push(longer);
    }
    rng.shuffle(&mut raw);
    of_raw(prefix, &raw)
}

fn literal(rng: &mut Rng, most: usize) -> Lit {
    plain(rng.from(1, most) as u32) + rng.below(2) as u32
}
