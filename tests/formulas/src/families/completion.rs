//! The completion principle CR: M. Janota, J. Marques-Silva, "Expansion-based QBF solving versus Q-resolution", Theoretical
//! Computer Science 577, 2015. False for every n.

use crate::formula::Formula;

/// exists x11 .. xnn forall z exists a1 .. an b1 .. bn, with (xij or z or ai) and (not xij or not z or bj) for all i and j,
/// not all a and not all b. So z false asks the board x for a row of ones, z true for a column of zeros, and no board has
/// both. n from 1 to 30. With `z_first` z stands leftmost: true then, since the board may follow z.
pub fn completion(n: usize, z_first: bool) -> Formula {
    let mut formula = Formula::new();
    let (x, z);
    if z_first {
        z = formula.forall(1)[0];
        x = formula.exists(n * n);
    } else {
        x = formula.exists(n * n);
        z = formula.forall(1)[0];
    }
    let letters = formula.exists(2 * n);
    let (a, b) = letters.split_at(n);
    for i in 0..n {
        for j in 0..n {
            formula.clause(&[x[i * n + j], z, a[i]]);
            formula.clause(&[-x[i * n + j], -z, b[j]]);
        }
    }
    for side in [a, b] {
        formula.clause(&side.iter().map(|letter| -letter).collect::<Vec<i32>>());
    }
    formula
}
