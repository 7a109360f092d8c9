//! The ordering principle GT: B. Krishnamurthy, "Short Proofs for Tricky Formulas", Acta Informatica 22, 1985. All
//! existential.

use crate::formula::Formula;

/// A transitive relation without two-cycles on n things in which each has one above it: false for every n.
/// Without the demand on the last thing it is true. n from 2 to 13.
pub fn ordering(n: usize, last_too: bool) -> Formula {
    let mut formula = Formula::new();
    let below = formula.exists(n * (n - 1));
    let under = |i: usize, j: usize| below[i * (n - 1) + if j > i { j - 1 } else { j }];
    for i in 0..n {
        for j in i + 1..n {
            formula.clause(&[-under(i, j), -under(j, i)]);
        }
    }
    for i in 0..n {
        for j in (0..n).filter(|&j| j != i) {
            for k in (0..n).filter(|&k| k != i && k != j) {
                formula.clause(&[-under(i, j), -under(j, k), under(i, k)]);
            }
        }
    }
    for i in 0..if last_too { n } else { n - 1 } {
        let above: Vec<i32> = (0..n).filter(|&j| j != i).map(|j| under(i, j)).collect();
        formula.clause(&above);
    }
    formula
}
