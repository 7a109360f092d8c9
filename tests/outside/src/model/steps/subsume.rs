//! Kinds 3 and 4: a clause that is a part of another, and one that nearly is.

use crate::model::formula::{opposite, var, Building, Formula, Lit};
use crate::model::tidy::tidy;

/// Subsume (a, b differ): clause a is a part of b; b goes.
pub fn subsume(f: &Formula, a: usize, b: usize) -> Option<Formula> {
    let (part, other) = (f.clauses.get(a)?, f.clauses.get(b)?);
    if a == b || !part.iter().all(|l| other.contains(l)) {
        return None;
    }
    let mut clauses = f.clauses.clone();
    clauses.remove(b);
    Some(Formula { prefix: f.prefix.clone(), clauses })
}

/// Strengthen (a, b): a has an existential literal whose opposite is in b, and all a's others are in b. The opposite leaves
/// b, which is tidied and keeps its place.
pub fn strengthen(f: &Formula, a: usize, b: usize) -> Option<Formula> {
    let (first, second) = (f.clauses.get(a)?, f.clauses.get(b)?);
    let places = f.places();
    let leaves = first.iter().copied().find(|&l| {
        places.is_existential(var(l)) && second.contains(&opposite(l)) && first.iter().all(|&m| m == l || second.contains(&m))
    })?;
    let mut clauses = Building::default();
    for (i, clause) in f.clauses.iter().enumerate() {
        if i == b {
            let rest: Vec<Lit> = clause.iter().copied().filter(|&m| m != opposite(leaves)).collect();
            clauses.push_tidied(tidy(&rest, &places));
        } else {
            clauses.push(clause.clone());
        }
    }
    Some(Formula { prefix: f.prefix.clone(), clauses: clauses.done() })
}
