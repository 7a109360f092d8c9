//! Formulas where every variable stands equally often in each phase, so that kinds 1 to 6 find little to do and the run comes
//! to its last kinds and outcomes.

use super::formulas::{literal, of_raw};
use crate::model::formula::{exists, forall, plain, var, Bound, Clause, Formula, Lit};
use crate::rng::Rng;

/// Clauses on which kinds 1 to 6 find little: every variable stands `times` plain and `times` negated, in clauses of `length`
/// literals of different variables. The few literals that find no place at the end are left out.
pub fn regular(rng: &mut Rng, vars: &[u32], times: usize, length: usize) -> Vec<Clause> {
    let mut left: Vec<Lit> = Vec::new();
    for &v in vars {
        for _ in 0..times {
            left.extend([plain(v), plain(v) + 1]);
        }
    }
    let mut raw = Vec::new();
    for _ in 0..20 {
        rng.shuffle(&mut left);
        let mut again = Vec::new();
        for some in left.chunks(length) {
            let mut its_vars: Vec<u32> = some.iter().map(|&l| var(l)).collect();
            its_vars.sort_unstable();
            its_vars.dedup();
            if its_vars.len() == length {
                raw.push(some.to_vec());
            } else {
                again.extend_from_slice(some);
            }
        }
        left = again;
    }
    raw
}

/// A regular formula with universals anywhere but at the right end.
pub fn regular_mixed(rng: &mut Rng) -> Formula {
    let variables = rng.from(8, 40);
    let vars: Vec<u32> = (1..=variables as u32).collect();
    let (length, times) = (rng.from(3, 4), rng.from(2, 4));
    let raw = regular(rng, &vars, times, length);
    let share = rng.from(2, 8);
    let inner = rng.below(variables);
    let bound = |rng: &mut Rng, v: u32| if (v as usize) < inner && rng.once_in(share) { forall(v) } else { exists(v) };
    let prefix = vars.iter().map(|&v| bound(rng, v)).collect();
    of_raw(prefix, &raw)
}

/// Outer existentials that nothing can be done with, a few universals, and inner existentials in clauses with all of them.
pub fn regular_expandable(rng: &mut Rng) -> Formula {
    let (outer, universals, inner) = (rng.from(9, 24), rng.from(1, 4), rng.from(2, 5));
    expandable(rng, outer, universals, inner)
}

/// The same in any size.
pub fn expandable(rng: &mut Rng, outer: usize, universals: usize, inner: usize) -> Formula {
    let (outer, universals, inner) = (outer as u32, universals as u32, inner as u32);
    let outer_vars: Vec<u32> = (1..=outer).collect();
    let mut prefix: Vec<Bound> = outer_vars.iter().map(|&v| exists(v)).collect();
    let universal: Vec<Bound> = (outer + 1..=outer + universals).map(forall).collect();
    let existential: Vec<Bound> = (outer + universals + 1..=outer + universals + inner).map(exists).collect();
    let mut raw = regular(rng, &outer_vars, 3, 3);
    for _ in 0..rng.from(4, 6) * inner as usize {
        let mut clause = vec![literal(rng, &existential), literal(rng, &existential), literal(rng, &prefix)];
        if !rng.once_in(3) {
            clause.push(literal(rng, &universal));
        }
        raw.push(clause);
    }
    prefix.extend(universal);
    prefix.extend(existential);
    of_raw(prefix, &raw)
}
