//! The family impl of QBFLIB. Its member of two levels, impl02, is printed in full in the README of the QBF part of HOL Light
//! (O. Kunčar, 2010-11; Debian package hol-light); the others here continue its pattern.

use crate::formula::Formula;

/// a implies b is split at c, by a universal, into a implies c and c implies b, n times; at the end a must imply b, and the
/// first a is true. True, by all existentials true. With `broken` the first b is false: then some split has a true a and a
/// false b to the end, so it is false. n from 1 to 255. With n = 2 and not broken it is impl02, number by number.
pub fn impl_chain(n: usize, broken: bool) -> Formula {
    let mut formula = Formula::new();
    let mut letters = formula.exists(3);
    let first = letters.clone();
    let mut levels = Vec::new();
    for level in 1..=n {
        let u = formula.forall(1)[0];
        let next = formula.exists(if level < n { 3 } else { 2 });
        let (a, b, c) = (letters[0], letters[1], letters[2]);
        // In impl02 the phase that takes the left half alternates, the innermost one being plain.
        let left = if (n - level) % 2 == 0 { -u } else { u };
        let mut level = Vec::new();
        for (phase, from, to) in [(-left, b, c), (left, c, a)] {
            for (new, old) in [(next[1], from), (next[0], to)] {
                level.push([phase, -new, old]);
                level.push([phase, -old, new]);
            }
        }
        levels.push(level);
        letters = next;
    }
    formula.clause(&[-letters[0], letters[1]]);
    for clause in levels.iter().rev().flatten() {
        formula.clause(clause);
    }
    formula.clause(&[first[0]]);
    if broken {
        formula.clause(&[-first[1]]);
    }
    formula
}
