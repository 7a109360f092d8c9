//! Ladders: forall u1 exists y1 z1 forall u2 exists y2 z2 .., with clauses between neighbouring rungs only. The innermost
//! universal touches a few clauses, so it is expanded, its copies are resolved, and the next rung is the innermost: long runs
//! of kinds 6 and 7.

use crate::draw::Draw;
use crate::formula::Formula;

/// n rungs, 3n variables, `width` random clauses of three or four literals a rung. Each clause holds under a planted strategy
/// (y follows u or its opposite, z follows y or the y above), so the formula is true; with `defect` one rung has y1 equal to
/// u2.
pub fn ladder(n: usize, width: usize, defect: bool, seed: u64) -> Formula {
    let mut draw = Draw::new(seed);
    let mut formula = Formula::new();
    let (mut u, mut y, mut z) = (Vec::new(), Vec::new(), Vec::new());
    for _ in 0..n {
        u.push(formula.forall(1)[0]);
        let pair = formula.exists(2);
        y.push(pair[0]);
        z.push(pair[1]);
    }
    // The planted strategy by two universals: yi is ui with a sign; zi is yi, or y(i-1), with a sign.
    let y_sign: Vec<bool> = (0..n).map(|_| draw.chance(1, 2)).collect();
    let z_sign: Vec<bool> = (0..n).map(|_| draw.chance(1, 2)).collect();
    let z_above: Vec<bool> = (0..n).map(|i| i > 0 && draw.chance(1, 2)).collect();
    for i in 0..n {
        let mut own = vec![u[i], y[i], z[i]];
        if i > 0 {
            own.extend([y[i - 1], z[i - 1]]);
        }
        let value = |variable: i32, chosen: &[bool]| -> bool {
            // chosen: the values of u(i-2), u(i-1), ui.
            let u_of = |j: usize| chosen[j + 2 - i];
            let y_of = |j: usize| u_of(j) == y_sign[j];
            let z_of = |j: usize| (if z_above[j] { y_of(j - 1) } else { y_of(j) }) == z_sign[j];
            if variable == u[i] {
                u_of(i)
            } else if variable == y[i] {
                y_of(i)
            } else if variable == z[i] {
                z_of(i)
            } else if i > 0 && variable == y[i - 1] {
                y_of(i - 1)
            } else {
                z_of(i - 1)
            }
        };
        let mut made = 0;
        let mut tries = 0;
        while made < width && tries < 1000 {
            tries += 1;
            let length = draw.between(3, 4).min(own.len());
            let clause: Vec<i32> = draw.several(&own, length).iter().map(|&variable| draw.sign(variable)).collect();
            let holds = (0..8).all(|bits| {
                let chosen = [bits & 1 != 0, bits & 2 != 0, bits & 4 != 0];
                clause.iter().any(|&literal| value(literal.abs(), &chosen) == (literal > 0))
            });
            let existential = clause.iter().any(|literal| literal.abs() == y[i] || literal.abs() == z[i]);
            let mut sorted = clause.clone();
            sorted.sort_unstable();
            if holds && existential && !formula.clauses.contains(&sorted) {
                formula.clause(&sorted);
                made += 1;
            }
        }
    }
    if defect && n > 1 {
        let at = n / 2;
        formula.clause(&[-y[at - 1], u[at], z[at]]);
        formula.clause(&[-y[at - 1], u[at], -z[at]]);
        formula.clause(&[y[at - 1], -u[at], z[at]]);
        formula.clause(&[y[at - 1], -u[at], -z[at]]);
    }
    formula
}
