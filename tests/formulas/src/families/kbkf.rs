//! KBKF: H. Kleine Büning, M. Karpinski, A. Flögel, "Resolution for Quantified Boolean Formulas", Information and Computation
//! 117(1), 1995. False for every size; Q-resolution refutations have exponential size.
//! KBKF-LD and KBKF-QU: V. Balabanov, M. Widl, J.-H. R. Jiang, "QBF Resolution Systems and Their Proof Complexities", SAT
//! 2014.

use crate::formula::Formula;

struct Letters {
    formula: Formula,
    d: Vec<i32>,
    e: Vec<i32>,
    /// The universals of a level: one, or with KBKF-QU two that stand in the same clauses in the same phase.
    x: Vec<Vec<i32>>,
    f: Vec<i32>,
}

/// exists d1 e1 forall x1 .. exists dt et forall xt exists f1 .. ft.
fn letters(t: usize, universals: usize) -> Letters {
    let mut formula = Formula::new();
    let (mut d, mut e, mut x) = (Vec::new(), Vec::new(), Vec::new());
    for _ in 0..t {
        let pair = formula.exists(2);
        d.push(pair[0]);
        e.push(pair[1]);
        x.push(formula.forall(universals));
    }
    let f = formula.exists(t);
    Letters { formula, d, e, x, f }
}

fn negated(literals: &[i32]) -> Vec<i32> {
    literals.iter().map(|literal| -literal).collect()
}

/// The clauses, each with `more` added to those on the d and e, and with the f to its right, if `tail`, added to each on an
/// f.
fn clauses(mut letters: Letters, first: bool, long: bool) -> Formula {
    let Letters { formula, d, e, x, f } = &mut letters;
    let t = d.len();
    let all_f = negated(f);
    let more: &[i32] = if long { &all_f } else { &[] };
    if first {
        formula.clause(&[&[-d[0], -e[0]], more].concat());
    }
    for i in 0..t {
        let next: Vec<i32> = if i + 1 < t { [&[-d[i + 1], -e[i + 1]], more].concat() } else { all_f.clone() };
        formula.clause(&[&[d[i]][..], &negated(&x[i]), &next].concat());
        formula.clause(&[&[e[i]][..], &x[i], &next].concat());
    }
    for i in 0..t {
        let tail: &[i32] = if long { &all_f[i + 1..] } else { &[] };
        formula.clause(&[&x[i][..], &[f[i]], tail].concat());
        formula.clause(&[&negated(&x[i])[..], &[f[i]], tail].concat());
    }
    letters.formula
}

/// Size t, 1 to 255: 4t variables, 4t + 1 clauses.
pub fn kbkf(t: usize) -> Formula {
    clauses(letters(t, 1), true, false)
}

/// KBKF without its first clause: true, by all d, e and f true.
pub fn without_first(t: usize) -> Formula {
    clauses(letters(t, 1), false, false)
}

/// KBKF-LD, size t, 1 to 50: hard for long-distance resolution too.
pub fn ld(t: usize) -> Formula {
    clauses(letters(t, 1), true, true)
}

/// KBKF-QU, size t, 1 to 204: hard for QU-resolution too.
pub fn qu(t: usize) -> Formula {
    clauses(letters(t, 2), true, false)
}
