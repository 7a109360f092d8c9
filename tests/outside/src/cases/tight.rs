//! Formulas on which kinds 1 to 5 find nothing, and where the result of kind 6 or 7 on one variable stands exactly at a
//! limit or past it. A core is made for the step; filler that the step does not touch brings the result to the number wanted.
//! No two clauses of a formula have the same variables, and every variable stands in both phases.

use super::formulas::of_raw;
use crate::model::formula::{exists, forall, from_signed, negated, plain, var, Bound, Clause, Formula, Lit, Var};
use crate::rng::Rng;
use std::collections::HashMap;

/// The variable that the step is about, in every formula here before it is renumbered.
pub const ASKED: Var = 1000;

/// The filler's triples are over the first of these, its quintuples over the second; cores have variables from 50 on.
const OF_TRIPLES: std::ops::RangeInclusive<Var> = 1..=25;
const OF_QUINTUPLES: std::ops::RangeInclusive<Var> = 26..=40;

/// So many different sets of `size` of the variables, as clauses with any signs.
pub fn spread(rng: &mut Rng, vars: &[Var], size: usize, count: usize) -> Vec<Clause> {
    let chosen = rng.some(&subsets(vars, size), count);
    assert!(chosen.len() == count, "there are not so many sets");
    chosen.iter().map(|set| signed(rng, set)).collect()
}

pub fn subsets(vars: &[Var], size: usize) -> Vec<Vec<Var>> {
    match vars {
        _ if size == 0 => vec![Vec::new()],
        [] => Vec::new(),
        [first, rest @ ..] => {
            let mut all = subsets(rest, size - 1);
            all.iter_mut().for_each(|set| set.insert(0, *first));
            all.extend(subsets(rest, size));
            all
        }
    }
}

pub fn signed(rng: &mut Rng, vars: &[Var]) -> Clause {
    vars.iter().map(|&v| plain(v) + rng.below(2) as Lit).collect()
}

/// A core with filler to its left: so many clauses of three literals, and of five.
fn filled(rng: &mut Rng, core: (Vec<Bound>, Vec<Clause>), triples: usize, quintuples: usize) -> Formula {
    let vars = |range: std::ops::RangeInclusive<Var>| range.collect::<Vec<Var>>();
    let mut prefix: Vec<Bound> = OF_TRIPLES.map(exists).collect();
    let mut raw = spread(rng, &vars(OF_TRIPLES), 3, triples);
    if quintuples > 0 {
        prefix.extend(OF_QUINTUPLES.map(exists));
        raw.extend(spread(rng, &vars(OF_QUINTUPLES), 5, quintuples));
    }
    prefix.extend(core.0);
    raw.extend(core.1);
    of_raw(prefix, &raw)
}

/// An existential, the universal asked for, and `groups` times three existentials, each three in three clauses: (s a b),
/// (s -a c), (s -b -c), where s is the first existential in one phase or the other. The universal stands in two clauses of the
/// first group. Expanding adds 3 groups - 1 variables, 3 groups - 2 clauses and 9 groups - 8 literals.
fn expand_core(groups: usize) -> (Vec<Bound>, Vec<Clause>) {
    let mut prefix = vec![exists(50), forall(ASKED)];
    let mut raw: Vec<Clause> = Vec::new();
    for group in 0..groups as Var {
        let s = plain(50) + group % 2;
        let (a, b, c) = (51 + 3 * group, 52 + 3 * group, 53 + 3 * group);
        prefix.extend([a, b, c].map(exists));
        raw.extend([vec![s, plain(a), plain(b)], vec![s, negated(a), plain(c)], vec![s, negated(b), negated(c)]]);
    }
    raw[1].push(plain(ASKED));
    raw[2].push(negated(ASKED));
    (prefix, raw)
}

/// By how much the weight rises when the universal of `expand_core` is expanded.
pub fn rise_of(groups: usize) -> u64 {
    15 * groups as u64 - 11
}

/// The result of the expansion has so many clauses, all but those of the core with three literals.
pub fn expand_to_clauses(rng: &mut Rng, groups: usize, clauses: usize) -> Formula {
    filled(rng, expand_core(groups), clauses - (6 * groups - 2), 0)
}

/// The result of the expansion has so many literals, and some hundred clauses less than there may be.
pub fn expand_to_literals(rng: &mut Rng, groups: usize, literals: usize) -> Formula {
    let (triples, quintuples) = shares(literals - (18 * groups - 6));
    filled(rng, expand_core(groups), triples, quintuples)
}

/// Clauses of three and of five literals that have so many literals together.
fn shares(literals: usize) -> (usize, usize) {
    let triples = (200..205).find(|t| (literals - 3 * t) % 5 == 0).expect("one of five");
    (triples, (literals - 3 * triples) / 5)
}

/// The result of the expansion has so many clauses and so many literals.
pub fn expand_to_both(rng: &mut Rng, groups: usize, clauses: usize, literals: usize) -> Formula {
    let (clauses, literals) = (clauses - (6 * groups - 2), literals - (18 * groups - 6));
    assert!((literals - 3 * clauses) % 2 == 0, "a clause has three literals or five");
    let quintuples = (literals - 3 * clauses) / 2;
    filled(rng, expand_core(groups), clauses - quintuples, quintuples)
}

/// The formula has so many variables, at least 7 more than the core's; the expansion adds 3 groups - 1. The copies take
/// numbers that are free while the universal still has its own, so it fits exactly up to 1,023 - 3 groups variables here.
pub fn expand_from_variables(groups: usize, variables: usize) -> Formula {
    let (mut prefix, mut raw) = expand_core(groups);
    let mut next = 51 + 3 * groups as Var;
    let mut left = variables - prefix.len();
    while left > 0 {
        // Rings of three and of four: (p q), (-q r), (-r -p), and one more between.
        let size = if left % 3 == 0 { 3 } else { 4 };
        let ring: Vec<Var> = (0..size).map(|i| numbered(next + i)).collect();
        raw.push(vec![plain(ring[0]), plain(ring[1])]);
        raw.extend(ring[1..].windows(2).map(|pair| vec![negated(pair[0]), plain(pair[1])]));
        raw.push(vec![negated(ring[ring.len() - 1]), negated(ring[0])]);
        prefix.splice(0..0, ring.iter().map(|&v| exists(v)));
        next += size;
        left -= size as usize;
    }
    of_raw(prefix, &raw)
}

/// The numbers from 51 on, past the one asked for, and then those from 1 on.
fn numbered(n: Var) -> Var {
    let past = if n >= ASKED { n + 1 } else { n };
    if past > 1023 {
        past - 1023
    } else {
        past
    }
}

fn clause(numbers: &[i64]) -> Clause {
    numbers.iter().map(|&n| from_signed(n)).collect()
}

/// The existential asked for stands in five clauses with universals, which its six resolvents lose: 22 literals become 12. The
/// result has so many clauses.
pub fn resolve_to_clauses(rng: &mut Rng, clauses: usize) -> Formula {
    let mut prefix: Vec<Bound> = (51..=56).map(forall).collect();
    prefix.push(exists(ASKED));
    let raw = vec![
        clause(&[1000, 1, 51, 52, 53]),
        clause(&[1000, 2, -51, -52, -53]),
        clause(&[-1000, 3, 54, 55]),
        clause(&[-1000, 4, -54, 56]),
        clause(&[-1000, 5, -55, -56]),
    ];
    filled(rng, (prefix, raw), clauses - 6, 0)
}

/// The existential asked for stands in a clause of five literals and two of three: 11 literals become 12. The result has so
/// many literals.
pub fn resolve_to_literals(rng: &mut Rng, literals: usize) -> Formula {
    let raw = vec![clause(&[1000, 1, 2, 26, 27]), clause(&[-1000, 3, 4]), clause(&[-1000, 5, 6])];
    let (triples, quintuples) = shares(literals - 12);
    filled(rng, (vec![exists(ASKED)], raw), triples, quintuples)
}

/// The formula with other variable numbers and its clauses in another order, and the number that the asked one has now.
pub fn renumbered(rng: &mut Rng, f: &Formula) -> (Formula, Var) {
    let mut numbers: Vec<Var> = (1..=1023).collect();
    rng.shuffle(&mut numbers);
    let new: HashMap<Var, Var> = f.prefix.iter().map(|b| b.var).zip(numbers).collect();
    let prefix = f.prefix.iter().map(|b| Bound { var: new[&b.var], quantifier: b.quantifier }).collect();
    let mut raw: Vec<Clause> = f.clauses.iter().map(|c| c.iter().map(|&l| plain(new[&var(l)]) + l % 2).collect()).collect();
    rng.shuffle(&mut raw);
    (of_raw(prefix, &raw), new[&ASKED])
}
