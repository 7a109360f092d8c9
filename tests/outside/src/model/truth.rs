//! Truth by plain search, straight from the game meaning. For formulas with few variables.

use super::formula::{var, Clause, Formula, Quantifier};

/// Empty prefix: true exactly if every clause is. Leftmost variable existential: one of its two values makes the rest true.
/// Universal: both do.
pub fn is_true(f: &Formula) -> bool {
    let most = f.prefix.iter().map(|b| b.var).max().unwrap_or(0) as usize;
    let mut values = vec![false; most + 1];
    search(f, 0, &mut values)
}

fn search(f: &Formula, place: usize, values: &mut Vec<bool>) -> bool {
    let Some(b) = f.prefix.get(place) else {
        return f.clauses.iter().all(|c| clause_is_true(c, values));
    };
    let mut with = |value: bool| {
        values[b.var as usize] = value;
        search(f, place + 1, values)
    };
    match b.quantifier {
        Quantifier::Exists => with(false) || with(true),
        Quantifier::Forall => with(false) && with(true),
    }
}

fn clause_is_true(clause: &Clause, values: &[bool]) -> bool {
    clause.iter().any(|&l| values[var(l) as usize] == (l % 2 == 0))
}
