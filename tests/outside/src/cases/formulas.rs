//! Random well formed formulas of many shapes. Every list is tidied and kept distinct, so each is a formula that a caller
//! may hold; the shapes aim at clauses that the steps act on.

use crate::model::formula::{exists, forall, opposite, plain, Bound, Building, Clause, Formula, Lit, Places};
use crate::model::tidy::tidy;
use crate::rng::Rng;

/// How large: variables and clauses at most, and the greatest variable number.
#[derive(Clone, Copy)]
pub struct Size {
    pub variables: usize,
    pub clauses: usize,
    pub greatest: usize,
}

pub const SMALL: Size = Size { variables: 6, clauses: 8, greatest: 9 };
pub const MIDDLE: Size = Size { variables: 14, clauses: 30, greatest: 40 };
pub const WIDE: Size = Size { variables: 60, clauses: 120, greatest: 1023 };

/// A random prefix: numbers in no order, quantifiers in one of several patterns.
pub fn prefix(rng: &mut Rng, count: usize, greatest: usize) -> Vec<Bound> {
    let numbers: Vec<u32> = (1..=greatest as u32).collect();
    let mut vars = rng.some(&numbers, count);
    if rng.once_in(3) {
        vars.sort_unstable();
    }
    let pattern = rng.below(9);
    let cut = rng.below(count + 1);
    let second_cut = rng.from(cut, count);
    let mut universal = rng.coin();
    let mut out = Vec::new();
    for (i, &v) in vars.iter().enumerate() {
        let is_universal = match pattern {
            0 => false,
            1 => rng.once_in(30),
            2 => i % 2 == 0,
            3 => i < cut,
            4 => i >= cut,
            5 => i >= cut && i < second_cut,
            6 => i < cut || i >= second_cut,
            7 => {
                if rng.once_in(3) {
                    universal = !universal;
                }
                universal
            }
            _ => rng.coin(),
        };
        out.push(if is_universal { forall(v) } else { exists(v) });
    }
    out
}

pub fn random(rng: &mut Rng, size: Size) -> Formula {
    let count = rng.below(size.variables + 1);
    let prefix = prefix(rng, count, size.greatest);
    let how_many = rng.below(size.clauses + 1);
    let flavour = rng.below(8);
    let mut raw: Vec<Clause> = Vec::new();
    for _ in 0..how_many {
        let clause = match flavour {
            _ if prefix.is_empty() => Vec::new(),
            0..=3 => next_clause(rng, &prefix, &raw),
            4 => {
                let length = rng.from(2, 3);
                literals(rng, &prefix, length)
            }
            5 => {
                let length = rng.from(1, 2);
                literals(rng, &prefix, length)
            }
            6 => literals(rng, &prefix, 3),
            _ => {
                let length = rng.from(1, prefix.len().min(8));
                literals(rng, &prefix, length)
            }
        };
        raw.push(clause);
    }
    of_raw(prefix, &raw)
}

/// A clause that has something to do with those before it: more, less, or other literals of one of them, or a new one.
fn next_clause(rng: &mut Rng, prefix: &[Bound], before: &[Clause]) -> Clause {
    let fresh = |rng: &mut Rng| {
        let length = *rng.pick(&[1, 2, 2, 2, 3, 3, 3, 3, 4, 5]);
        literals(rng, prefix, length)
    };
    if before.is_empty() || rng.once_in(2) {
        return fresh(rng);
    }
    let mut clause = rng.pick(before).clone();
    match rng.below(7) {
        0 => clause.push(literal(rng, prefix)),
        1 => {
            clause.push(literal(rng, prefix));
            turn_one(rng, &mut clause);
        }
        2 => turn_one(rng, &mut clause),
        3 => {
            // The other half of an equality, if the clause has two literals.
            for l in clause.iter_mut() {
                *l = opposite(*l);
            }
        }
        4 => {
            if !clause.is_empty() {
                clause.remove(rng.below(clause.len()));
            }
        }
        5 => {
            if !clause.is_empty() {
                let i = rng.below(clause.len());
                clause[i] = literal(rng, prefix);
            }
        }
        _ => {}
    }
    clause
}

/// A formula with no unit and hardly a pure variable: blocks of quantifiers with an existential one at the right end, and
/// clauses of three or four literals with at least two existentials.
pub fn hard(rng: &mut Rng, variables: usize) -> Formula {
    let numbers: Vec<u32> = (1..=variables as u32 + 3).collect();
    let vars = rng.some(&numbers, variables);
    let blocks = rng.from(1, 4);
    let cuts: Vec<usize> = (1..blocks).map(|_| rng.below(variables)).collect();
    // The block at the right end is number 0 from there.
    let block = |i: usize| cuts.iter().filter(|&&cut| i < cut).count();
    let prefix: Vec<Bound> =
        vars.iter().enumerate().map(|(i, &v)| if block(i) % 2 == 0 { exists(v) } else { forall(v) }).collect();
    let existentials: Vec<Bound> = prefix.iter().copied().filter(|b| b.is_existential()).collect();
    let mut raw = Vec::new();
    let times = *rng.pick(&[3, 4, 6, 8, 10]);
    for _ in 0..variables * times / 2 {
        let mut clause = literals(rng, &existentials, 2);
        let more = rng.from(1, 2);
        clause.extend(literals(rng, &prefix, more));
        raw.push(clause);
    }
    let mut f = of_raw(prefix, &raw);
    f.clauses.retain(|c| c.len() > 1);
    f
}

fn turn_one(rng: &mut Rng, clause: &mut Clause) {
    if !clause.is_empty() {
        let i = rng.below(clause.len());
        clause[i] = opposite(clause[i]);
    }
}

pub fn literal(rng: &mut Rng, prefix: &[Bound]) -> Lit {
    plain(rng.pick(prefix).var) + rng.below(2) as u32
}

pub fn literals(rng: &mut Rng, prefix: &[Bound], length: usize) -> Clause {
    (0..length).map(|_| literal(rng, prefix)).collect()
}

/// The well formed formula of any clauses over the prefix.
pub fn of_raw(prefix: Vec<Bound>, raw: &[Clause]) -> Formula {
    let places = Places::new(&prefix);
    let mut clauses = Building::default();
    for clause in raw {
        clauses.push_tidied(tidy(clause, &places));
    }
    Formula { prefix, clauses: clauses.done() }
}
