//! Formulas that fill a table: as many variables, clauses or literals as there can be.

use super::formulas::{literal, of_raw};
use super::regular::regular;
use crate::model::formula::{exists, forall, negated, plain, Bound, Clause, Formula};
use crate::rng::Rng;

pub fn full(rng: &mut Rng) -> Formula {
    match rng.below(5) {
        0 => variables(rng),
        1 => clauses(rng, 2047),
        2 => clauses(rng, 2046),
        3 => literals(rng, 8191),
        _ => literals(rng, 8190),
    }
}

/// 1,023 variables in any order, two literals or three in a clause, some units and equalities.
fn variables(rng: &mut Rng) -> Formula {
    let mut numbers: Vec<u32> = (1..=1023).collect();
    rng.shuffle(&mut numbers);
    let prefix: Vec<Bound> = numbers.iter().map(|&v| if rng.once_in(5) { forall(v) } else { exists(v) }).collect();
    let mut raw: Vec<Clause> = Vec::new();
    for _ in 0..500 {
        let length = rng.from(2, 4);
        raw.push((0..length).map(|_| literal(rng, &prefix)).collect());
    }
    let pair = raw[rng.below(raw.len())].clone();
    raw.push(pair.iter().take(2).map(|l| l ^ 1).collect());
    raw.push(pair.iter().take(2).copied().collect());
    let mut f = of_raw(prefix, &raw);
    f.clauses.retain(|c| !c.is_empty());
    f
}

/// As many clauses, all existential, with a unit, an equality, a part of another and a clause nearly so at the end.
fn clauses(rng: &mut Rng, total: usize) -> Formula {
    let vars: Vec<u32> = (1..=900).collect();
    let mut raw = regular(rng, &vars, 4, 3);
    raw.truncate(total - 5);
    raw.push(vec![plain(901)]);
    raw.push(vec![plain(902), negated(903)]);
    raw.push(vec![negated(902), plain(903)]);
    raw.push(vec![plain(902), plain(1), plain(903)]);
    raw.push(vec![negated(901), plain(902), plain(2), negated(903)]);
    of_raw((1..=903).map(exists).collect(), &raw)
}

/// As many literals, in long clauses.
fn literals(rng: &mut Rng, total: usize) -> Formula {
    let mut prefix: Vec<Bound> = (1..=499).map(exists).collect();
    prefix.push(forall(500));
    prefix.extend((501..=600).map(exists));
    let mut raw: Vec<Clause> = vec![vec![plain(1), negated(501)], vec![negated(1), plain(501)], vec![plain(2)]];
    let mut left = total - 5;
    while left > 0 {
        let length = left.min(rng.from(300, 599));
        // Without variable 2 but for its opposite: the unit has something to remove.
        raw.push((2..2 + length as u32).map(|v| if v == 2 { negated(2) } else { plain(v) + rng.below(2) as u32 }).collect());
        left -= length;
    }
    of_raw(prefix, &raw)
}
