//! The layout of a work table, and the check whether a table with counts is a well formed formula.

use super::formula::{var, Bound, Clause, Formula, Places, Quantifier};
use super::limits::{CLAUSES, ENDS_AT, LITERALS, LITERALS_AT, TABLE, VARIABLES};
use super::tidy::is_tidy;
use std::collections::HashSet;

/// The record's counts, as the caller hands them over: any numbers.
#[derive(Clone, Copy, PartialEq, Eq, Debug, Default)]
pub struct Counts {
    pub variables: u64,
    pub clauses: u64,
    pub literals: u64,
}

pub fn counts(f: &Formula) -> Counts {
    Counts { variables: f.prefix.len() as u64, clauses: f.clauses.len() as u64, literals: f.literals() as u64 }
}

/// The table of a formula that fits.
pub fn encode(f: &Formula) -> Vec<u16> {
    assert!(f.fits());
    let mut table = vec![0u16; TABLE];
    for (i, b) in f.prefix.iter().enumerate() {
        table[i] = (2 * b.var + if b.is_existential() { 0 } else { 1 }) as u16;
    }
    let mut end = 0;
    for (i, clause) in f.clauses.iter().enumerate() {
        for (j, &l) in clause.iter().enumerate() {
            table[LITERALS_AT + end + j] = l as u16;
        }
        end += clause.len();
        table[ENDS_AT + i] = end as u16;
    }
    table
}

/// The formula of a table and its counts, if they are a well formed one. The table is 11,261 long.
pub fn decode(table: &[u16], counts: &Counts) -> Option<Formula> {
    assert!(table.len() == TABLE);
    let within = counts.variables <= VARIABLES as u64 && counts.clauses <= CLAUSES as u64 && counts.literals <= LITERALS as u64;
    if !within {
        return None;
    }
    let variables = counts.variables as usize;
    let clauses = counts.clauses as usize;
    let literals = counts.literals as usize;

    let (prefix_area, rest) = table.split_at(ENDS_AT);
    let (ends_area, literals_area) = rest.split_at(LITERALS_AT - ENDS_AT);
    let (used_prefix, unused_prefix) = prefix_area.split_at(variables);
    let (used_ends, unused_ends) = ends_area.split_at(clauses);
    let (used_literals, unused_literals) = literals_area.split_at(literals);
    for unused in [unused_prefix, unused_ends, unused_literals] {
        if unused.iter().any(|&n| n != 0) {
            return None;
        }
    }

    let prefix = decode_prefix(used_prefix)?;
    let list = decode_clauses(used_ends, used_literals)?;
    let places = Places::new(&prefix);
    let bound = list.iter().flatten().all(|&l| places.find(var(l)).is_some());
    let ascending = list.iter().all(|c| c.windows(2).all(|pair| pair[0] < pair[1]));
    if !bound || !ascending || !list.iter().all(|c| is_tidy(c, &places)) {
        return None;
    }
    let distinct: HashSet<&Clause> = list.iter().collect();
    if distinct.len() != list.len() {
        return None;
    }
    Some(Formula { prefix, clauses: list })
}

fn decode_prefix(entries: &[u16]) -> Option<Vec<Bound>> {
    let mut seen = HashSet::new();
    let mut prefix = Vec::new();
    for &entry in entries {
        let var = entry as u32 / 2;
        if var < 1 || var as usize > VARIABLES || !seen.insert(var) {
            return None;
        }
        prefix.push(Bound { var, quantifier: if entry % 2 == 0 { Quantifier::Exists } else { Quantifier::Forall } });
    }
    Some(prefix)
}

/// The ends cut the literals into clauses: they do not fall, and the last is the number of literals.
fn decode_clauses(ends: &[u16], literals: &[u16]) -> Option<Vec<Clause>> {
    let mut list = Vec::new();
    let mut begin = 0;
    for &end in ends {
        let end = end as usize;
        if end < begin || end > literals.len() {
            return None;
        }
        list.push(literals[begin..end].iter().map(|&l| l as u32).collect());
        begin = end;
    }
    if begin != literals.len() {
        return None;
    }
    Some(list)
}
