//! Formulas that the preprocessor leaves only after many steps of one kind. All existential, so their truth is plain.

use crate::draw::Draw;
use crate::formula::Formula;

/// A chain of n - 1 equalities of two literals each, in a random order: true, and about n - 1 steps of kind 5.
/// 2(n - 1) clauses, so n is at most 1,023.
pub fn equalities(n: usize, seed: u64) -> Formula {
    let mut draw = Draw::new(seed);
    let mut formula = Formula::new();
    let x = formula.exists(n);
    let mut chain: Vec<i32> = x.iter().map(|&variable| draw.sign(variable)).collect();
    draw.shuffle(&mut chain);
    let mut clauses = Vec::new();
    for pair in chain.windows(2) {
        clauses.push(vec![-pair[0], pair[1]]);
        clauses.push(vec![pair[0], -pair[1]]);
    }
    draw.shuffle(&mut clauses);
    formula.clauses = clauses;
    formula
}

/// One unit and n - 1 implications after it, in a random order; with `false_end` also the last one's opposite.
/// About n steps of kind 1, false exactly with `false_end`.
pub fn units(n: usize, false_end: bool, seed: u64) -> Formula {
    let mut draw = Draw::new(seed);
    let mut formula = Formula::new();
    let x = formula.exists(n);
    let mut chain: Vec<i32> = x.iter().map(|&variable| draw.sign(variable)).collect();
    draw.shuffle(&mut chain);
    let mut clauses = vec![vec![chain[0]]];
    for i in 1..n {
        // A second condition that is also met, so that each clause is shortened more than once.
        let also = chain[draw.below(i)];
        let mut clause = vec![-chain[i - 1], chain[i]];
        if also != chain[i - 1] {
            clause.push(-also);
        }
        clauses.push(clause);
    }
    if false_end {
        clauses.push(vec![-chain[n - 1], -chain[n / 2], -chain[n / 3]]);
    }
    draw.shuffle(&mut clauses);
    formula.clauses = clauses;
    formula
}
