//! QParity, LQParity and QUParity: O. Beyersdorff, L. Chew, M. Janota, "Proof Complexity of Resolution-based QBF Calculi",
//! STACS 2015. The universal z must differ from the parity of x1 .. xn, but it is chosen after them: false for every n of 2
//! or more.

use crate::formula::Formula;

/// The universals' part in the clauses that define the t.
#[derive(Clone, Copy, PartialEq, Eq)]
pub enum Kind {
    /// QParity: none.
    Plain,
    /// LQParity: each clause twice, once with z and once with its opposite.
    Long,
    /// QUParity: as LQParity, with two universals in place of one.
    Doubled,
}

/// exists x1 .. xn forall z exists t2 .. tn, with t2 = x1 xor x2, ti = t(i-1) xor xi, and z differs from tn.
/// n from 2: to 511 for QParity, 256 for LQParity, 204 for QUParity. With `z_first` the universals stand leftmost: true then.
pub fn parity(n: usize, kind: Kind, z_first: bool) -> Formula {
    let universals = if kind == Kind::Doubled { 2 } else { 1 };
    let mut formula = Formula::new();
    let (x, z);
    if z_first {
        z = formula.forall(universals);
        x = formula.exists(n);
    } else {
        x = formula.exists(n);
        z = formula.forall(universals);
    }
    let t = formula.exists(n - 1);
    let opposite: Vec<i32> = z.iter().map(|z| -z).collect();
    let mut sum = x[0];
    for i in 1..n {
        let (a, b, o) = (sum, x[i], t[i - 1]);
        for clause in [[-a, -b, -o], [a, b, -o], [-a, b, o], [a, -b, o]] {
            if kind == Kind::Plain {
                formula.clause(&clause);
            } else {
                formula.clause(&[&z[..], &clause].concat());
                formula.clause(&[&opposite[..], &clause].concat());
            }
        }
        sum = o;
    }
    formula.clause(&[&z[..], &[sum]].concat());
    formula.clause(&[&opposite[..], &[-sum]].concat());
    formula
}
