//! Why one variable is left (document 02, request 2): the one reason that document gives for it, with its numbers. Nothing
//! is taken from a run but its own rules: the verdict, the candidates of kinds 1 to 5, and what kinds 6 and 7 give.

use super::choice::{next_light, verdict};
use super::entry::{entry, Entry};
use super::formula::{var, Clause, Formula, Quantifier, Var};
use super::limits;
use super::steps::{resolve, whole};
use std::collections::HashSet;

/// The limits, in the order in which the first that is passed is named.
#[derive(Clone, Copy, PartialEq, Eq, Debug, PartialOrd, Ord)]
pub enum Limit {
    Variables,
    Clauses,
    Literals,
}

#[derive(Clone, Copy, PartialEq, Eq, Debug)]
pub enum Reason {
    True,
    False,
    /// A candidate of kinds 1 to 5 stands: what a run does next.
    Next(Entry),
    /// Kind 6 or 7 on the variable itself counts.
    Own(Entry),
    /// An existential: the lowest clause with it that has a variable not left of the first universal right of it, the
    /// leftmost such variable of that clause, and that universal.
    TooFarRight {
        clause: usize,
        variable: Var,
        universal: Var,
    },
    /// An existential: resolving would not lower the weight.
    NotLighter {
        weight: u64,
        after: u64,
    },
    /// A universal: the leftmost existential right of it, and the first universal after that.
    Between {
        existential: Var,
        universal: Var,
    },
    /// A universal: expanding would raise the weight by more than E.
    TooHeavy {
        weight: u64,
        after: u64,
    },
    /// The first limit that the result would pass.
    Over(Limit),
}

impl Reason {
    /// The probe's number of the kind: 0 for a verdict.
    pub fn kind(self) -> u64 {
        match self {
            Reason::True | Reason::False => 0,
            Reason::Next(_) => 1,
            Reason::Own(_) => 2,
            Reason::TooFarRight { .. } => 3,
            Reason::NotLighter { .. } => 4,
            Reason::Between { .. } => 5,
            Reason::TooHeavy { .. } => 6,
            Reason::Over(Limit::Variables) => 7,
            Reason::Over(Limit::Clauses) => 8,
            Reason::Over(Limit::Literals) => 9,
        }
    }

    /// The probe's three values; those that are not used are 0.
    pub fn values(self) -> [u64; 3] {
        match self {
            Reason::True | Reason::False | Reason::Over(_) => [0, 0, 0],
            Reason::Next(e) | Reason::Own(e) => [e.bits() as u64, 0, 0],
            Reason::TooFarRight { clause, variable, universal } => [clause as u64, variable as u64, universal as u64],
            Reason::NotLighter { weight, after } | Reason::TooHeavy { weight, after } => [weight, after, 0],
            Reason::Between { existential, universal } => [existential as u64, universal as u64, 0],
        }
    }
}

/// The reason, or nothing if the variable is not in the prefix.
pub fn reason(f: &Formula, variable: Var, allowance: u64) -> Option<Reason> {
    let (place, quantifier) = f.places().find(variable)?;
    if let Some(truth) = verdict(f) {
        return Some(if truth { Reason::True } else { Reason::False });
    }
    if let Some(e) = next_light(f) {
        return Some(Reason::Next(e));
    }
    Some(match quantifier {
        Quantifier::Exists => of_existential(f, variable, place),
        Quantifier::Forall => of_universal(f, variable, place, allowance),
    })
}

fn of_existential(f: &Formula, x: Var, place: usize) -> Reason {
    let places = f.places();
    let with: Vec<(usize, &Clause)> = f.clauses.iter().enumerate().filter(|(_, c)| c.iter().any(|&l| var(l) == x)).collect();
    if let Some(b) = f.prefix[place + 1..].iter().find(|b| !b.is_existential()) {
        let border = places.place(b.var);
        for (clause, literals) in &with {
            let far = literals.iter().map(|&l| var(l)).filter(|&v| places.place(v) >= border);
            if let Some(variable) = far.min_by_key(|&v| places.place(v)) {
                return Reason::TooFarRight { clause: *clause, variable, universal: b.var };
            }
        }
    }
    // The result is measured and not built: it may be far larger than a table.
    let with: Vec<&Clause> = with.into_iter().map(|(_, c)| c).collect();
    let all: HashSet<&Clause> = f.clauses.iter().collect();
    let (clauses, literals) = resolve::measure(f, &places, x, &with, &all).expect("nothing stands too far right");
    let variables = f.prefix.len() - 1;
    let weight = f.weight() as u64;
    let after = (variables + clauses + literals) as u64;
    if after >= weight {
        return Reason::NotLighter { weight, after };
    }
    passed(variables, clauses, literals).map_or(Reason::Own(entry(6, x, 0)), Reason::Over)
}

fn of_universal(f: &Formula, u: Var, place: usize, allowance: u64) -> Reason {
    let right = &f.prefix[place + 1..];
    if let Some(first) = right.iter().position(|b| b.is_existential()) {
        if let Some(b) = right[first..].iter().find(|b| !b.is_existential()) {
            return Reason::Between { existential: right[first].var, universal: b.var };
        }
    }
    let e = entry(7, u, 0);
    let result = whole(f, e).expect("no existential is followed by a universal");
    let weight = f.weight() as u64;
    let after = result.weight() as u64;
    if after > weight + allowance {
        return Reason::TooHeavy { weight, after };
    }
    // A copy numbered over 1,023 passes the limit of variables however many there are.
    let greatest = result.prefix.iter().map(|b| b.var as usize).max().unwrap_or(0);
    let variables = result.prefix.len().max(greatest);
    passed(variables, result.clauses.len(), result.literals()).map_or(Reason::Own(e), Reason::Over)
}

/// The first limit passed, of variables, clauses, literals.
fn passed(variables: usize, clauses: usize, literals: usize) -> Option<Limit> {
    if variables > limits::VARIABLES {
        Some(Limit::Variables)
    } else if clauses > limits::CLAUSES {
        Some(Limit::Clauses)
    } else if literals > limits::LITERALS {
        Some(Limit::Literals)
    } else {
        None
    }
}
