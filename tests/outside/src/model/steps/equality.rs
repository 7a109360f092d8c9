//! Kind 5: two clauses that together say that two literals are equal.

use crate::model::formula::{opposite, var, Building, Formula, Lit, Places};
use crate::model::tidy::tidy;

/// Equality (a < b): two two-literal clauses, each the other's literals negated. The right-hand variable is replaced by what
/// the pair says it equals, everywhere; all clauses are tidied; the variable is dropped.
pub fn equality(f: &Formula, a: usize, b: usize) -> Option<Formula> {
    let (first, second) = (f.clauses.get(a)?, f.clauses.get(b)?);
    if a >= b || first.len() != 2 || second.len() != 2 || !first.iter().all(|&l| second.contains(&opposite(l))) {
        return None;
    }
    let places = f.places();
    let (left, right) =
        if places.place(var(first[0])) < places.place(var(first[1])) { (first[0], first[1]) } else { (first[1], first[0]) };
    // (left or right) and (not left or not right): right equals not left.
    let replaced = |l: Lit| {
        if l == right {
            opposite(left)
        } else if l == opposite(right) {
            left
        } else {
            l
        }
    };
    let prefix = f.prefix_without(var(right));
    let new_places = Places::new(&prefix);
    let mut clauses = Building::default();
    for clause in &f.clauses {
        let literals: Vec<Lit> = clause.iter().map(|&l| replaced(l)).collect();
        clauses.push_tidied(tidy(&literals, &new_places));
    }
    Some(Formula { prefix, clauses: clauses.done() })
}
