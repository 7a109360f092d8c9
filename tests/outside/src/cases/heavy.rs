//! Formulas on which kinds 1 to 5 find nothing, with a variable in hundreds of clauses of each phase: what resolving it gives
//! is far larger than a table, or far smaller than the number of resolvents because most of them are equal.

use super::formulas::of_raw;
use super::tight::{signed, spread, subsets, ASKED};
use crate::model::formula::{exists, forall, negated, plain, Bound, Clause, Formula, Lit, Var};
use crate::rng::Rng;

/// The variable asked for plain in so many clauses with two variables of 1 to `vars`, negated in as many with two variables
/// of the same number after them. No two resolvents are equal and none has both phases.
pub fn apart(rng: &mut Rng, vars: usize, each: usize) -> Formula {
    let first: Vec<Var> = (1..=vars as Var).collect();
    let second: Vec<Var> = first.iter().map(|v| v + vars as Var).collect();
    let mut raw: Vec<Clause> = Vec::new();
    for (vars, asked) in [(&first, plain(ASKED)), (&second, negated(ASKED))] {
        raw.extend(spread(rng, vars, 2, each).into_iter().map(|pair| with(pair, asked)));
    }
    of_raw(first.iter().chain(&second).copied().chain([ASKED]).map(exists).collect(), &raw)
}

fn with(mut clause: Clause, literal: Lit) -> Clause {
    clause.push(literal);
    clause
}

/// The same over one set of variables, with `size` of them in each clause: some resolvents have both phases, some are equal
/// to others, and some stand in the formula already.
pub fn mixed(rng: &mut Rng, vars: usize, size: usize, positives: usize, negatives: usize) -> Formula {
    let all: Vec<Var> = (1..=vars as Var).collect();
    let sets = rng.some(&subsets(&all, size), positives + negatives);
    let mut raw: Vec<Clause> = Vec::new();
    for (i, set) in sets.iter().enumerate() {
        let asked = if i < positives { plain(ASKED) } else { negated(ASKED) };
        raw.push(with(signed(rng, set), asked));
    }
    // A few resolvents, with the asked variable taken out of a clause of each phase.
    for _ in 0..rng.below(12) {
        let mut resolvent = rng.pick(&raw[..positives]).clone();
        resolvent.extend(rng.pick(&raw[positives..sets.len()]));
        resolvent.retain(|&l| l / 2 != ASKED);
        raw.push(resolvent);
    }
    of_raw(all.into_iter().chain([ASKED]).map(exists).collect(), &raw)
}

/// Existentials 1 to 2 `outer`, universals, then the one asked for: plain with one of the first `outer` and with the first
/// half of the universals, in `each` ways to sign these; negated with one of the others and the second half. The resolvents
/// lose the universals: of `each` times `each` for two outer existentials one is left. Every outer existential stands negated
/// in one clause of two.
pub fn folded(rng: &mut Rng, outer: usize, universals: usize, each: usize) -> Formula {
    let outer = outer as Var;
    let mut prefix: Vec<Bound> = (1..=2 * outer).map(exists).collect();
    prefix.extend((501..501 + 2 * universals as Var).map(forall));
    prefix.push(exists(ASKED));
    let ways: Vec<u32> = (0..1 << universals).collect();
    let mut raw: Vec<Clause> = Vec::new();
    for v in 1..=2 * outer {
        let second = v > outer;
        for way in rng.some(&ways, each) {
            let first_universal = 501 + if second { universals as Var } else { 0 };
            let mut clause: Clause = (0..universals as Var).map(|i| plain(first_universal + i) + (way >> i & 1)).collect();
            clause.extend([plain(v), if second { negated(ASKED) } else { plain(ASKED) }]);
            raw.push(clause);
        }
        if second {
            raw.push(vec![negated(v), negated(v - outer)]);
        }
    }
    rng.shuffle(&mut raw);
    of_raw(prefix, &raw)
}
