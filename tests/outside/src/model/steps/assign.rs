//! Kinds 1 and 2: a literal becomes true, and its variable goes.

use crate::model::formula::{negated, opposite, plain, var, Building, Formula, Lit, Places, Quantifier, Var};
use crate::model::tidy::tidy;

/// Unit (clause a): its one literal becomes true.
pub fn unit(f: &Formula, a: usize) -> Option<Formula> {
    match f.clauses.get(a)?.as_slice() {
        [l] => Some(becomes_true(f, *l)),
        _ => None,
    }
}

/// Pure (variable a): absent, it is dropped. Existential in one phase only: that literal becomes true. Universal in one
/// phase only: that literal becomes false.
pub fn pure(f: &Formula, a: Var) -> Option<Formula> {
    let (_, quantifier) = f.places().find(a)?;
    let stands = |l: Lit| f.clauses.iter().any(|c| c.contains(&l));
    let in_one_phase = match (stands(plain(a)), stands(negated(a))) {
        (false, false) => return Some(Formula { prefix: f.prefix_without(a), clauses: f.clauses.clone() }),
        (true, false) => plain(a),
        (false, true) => negated(a),
        (true, true) => return None,
    };
    match quantifier {
        Quantifier::Exists => Some(becomes_true(f, in_one_phase)),
        Quantifier::Forall => Some(becomes_true(f, opposite(in_one_phase))),
    }
}

/// Clauses with the literal go, its opposite is removed, the rest is tidied, the variable is dropped.
fn becomes_true(f: &Formula, l: Lit) -> Formula {
    let prefix = f.prefix_without(var(l));
    let places = Places::new(&prefix);
    let mut clauses = Building::default();
    for clause in f.clauses.iter().filter(|c| !c.contains(&l)) {
        let rest: Vec<Lit> = clause.iter().copied().filter(|&m| m != opposite(l)).collect();
        clauses.push_tidied(tidy(&rest, &places));
    }
    Formula { prefix, clauses: clauses.done() }
}
