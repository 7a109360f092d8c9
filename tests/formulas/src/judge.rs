//! The truth of a small formula, straight from the game meaning: a third opinion beside the preprocessor and the second
//! solver.

use crate::formula::{Formula, Quantifier};

/// Variables are chosen from the left. A branch ends early only where a clause is false, or where all are true, already.
pub fn truth(formula: &Formula) -> bool {
    let mut order = Vec::new();
    for block in &formula.prefix {
        order.extend(block.variables.iter().map(|&variable| (block.quantifier, variable)));
    }
    let mut values = vec![None; formula.largest as usize + 1];
    wins(&order, &mut values, &formula.clauses)
}

fn wins(order: &[(Quantifier, i32)], values: &mut Vec<Option<bool>>, clauses: &[Vec<i32>]) -> bool {
    let mut all = true;
    for clause in clauses {
        let mut held = false;
        let mut open = false;
        for &literal in clause {
            match values[literal.unsigned_abs() as usize] {
                None => open = true,
                Some(value) => held |= value == (literal > 0),
            }
        }
        if !held && !open {
            return false;
        }
        all &= held;
    }
    if all {
        return true;
    }
    let Some(&(quantifier, variable)) = order.first() else { unreachable!("a variable in no quantifier line") };
    let mut found = [false, true].into_iter().map(|value| {
        values[variable as usize] = Some(value);
        wins(&order[1..], values, clauses)
    });
    let outcome = match quantifier {
        Quantifier::Exists => found.any(|won| won),
        Quantifier::Forall => found.all(|won| won),
    };
    values[variable as usize] = None;
    outcome
}
