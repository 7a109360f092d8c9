//! A formula on which a run takes more than 8,192 steps, so that the program's limit is reached and logs are long.

use super::formulas::of_raw;
use crate::model::formula::{exists, negated, plain, Clause, Formula};

/// Short clauses (x l) and long clauses with x and the opposite of every l: each long clause loses each of these opposites by
/// a strengthening of its own, 7,700 of them. Then each l is pure. The variables that stand in no clause are dropped before.
pub fn long_run() -> Formula {
    let x = 1;
    let short = 2..=101;
    let marks = 102..=178;
    let mut raw: Vec<Clause> = short.clone().map(|l| vec![plain(x), plain(l)]).collect();
    for mark in marks.clone() {
        let mut clause = vec![plain(x), plain(mark)];
        clause.extend(short.clone().map(negated));
        raw.push(clause);
    }
    // So that neither x nor a mark is pure.
    let mut last = vec![negated(x)];
    last.extend(marks.map(negated));
    raw.push(last);
    of_raw((1..=1023).map(exists).collect(), &raw)
}
