//! The equality formulas: O. Beyersdorff, J. Blinkhorn, L. Hinde, "Size, Cost, and Capacity: A Semantic Technique for Hard
//! Random QBFs", ITCS 2018. The universals must copy the x to win, and they can: false for every n.

use crate::formula::Formula;

/// Where the universals stand.
#[derive(Clone, Copy, PartialEq, Eq)]
pub enum Order {
    /// exists x forall u exists t, as published.
    Published,
    /// exists x1 forall u1 exists t1 exists x2 forall u2 exists t2 ..: false too, since each u still sees its x.
    Interleaved,
    /// forall u exists x exists t: true, since each x now sees its u.
    UniversalsFirst,
}

/// (xi or ui or not ti), (not xi or not ui or not ti) for each i, and (t1 or .. or tn). n from 1 to 341.
pub fn equality(n: usize, order: Order) -> Formula {
    let mut formula = Formula::new();
    let (mut x, mut u, mut t) = (Vec::new(), Vec::new(), Vec::new());
    match order {
        Order::Published => {
            x = formula.exists(n);
            u = formula.forall(n);
            t = formula.exists(n);
        }
        Order::Interleaved => {
            for _ in 0..n {
                x.extend(formula.exists(1));
                u.extend(formula.forall(1));
                t.extend(formula.exists(1));
            }
        }
        Order::UniversalsFirst => {
            u = formula.forall(n);
            x = formula.exists(n);
            t = formula.exists(n);
        }
    }
    for i in 0..n {
        formula.clause(&[x[i], u[i], -t[i]]);
        formula.clause(&[-x[i], -u[i], -t[i]]);
    }
    formula.clause(&t);
    formula
}
