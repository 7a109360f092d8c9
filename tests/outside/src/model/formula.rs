//! A formula: a prefix and a list of clauses. No limit is built in, so that the whole result of a step can be looked at
//! whether it fits or not; `fits` says if it keeps to the limits.

use super::limits;
use std::collections::HashSet;

pub type Var = u32;

/// A literal by its table number: 2v plain, 2v+1 negated.
pub type Lit = u32;

/// A clause ascends by these numbers.
pub type Clause = Vec<Lit>;

pub fn plain(v: Var) -> Lit {
    2 * v
}

pub fn negated(v: Var) -> Lit {
    2 * v + 1
}

pub fn var(l: Lit) -> Var {
    l / 2
}

pub fn opposite(l: Lit) -> Lit {
    l ^ 1
}

/// A literal from its number in a text: 3 or -3.
pub fn from_signed(n: i64) -> Lit {
    if n < 0 {
        negated((-n) as Var)
    } else {
        plain(n as Var)
    }
}

#[derive(Clone, Copy, PartialEq, Eq, Debug, Hash)]
pub enum Quantifier {
    Exists,
    Forall,
}

#[derive(Clone, Copy, PartialEq, Eq, Debug, Hash)]
pub struct Bound {
    pub var: Var,
    pub quantifier: Quantifier,
}

pub fn exists(var: Var) -> Bound {
    Bound { var, quantifier: Quantifier::Exists }
}

pub fn forall(var: Var) -> Bound {
    Bound { var, quantifier: Quantifier::Forall }
}

impl Bound {
    pub fn is_existential(&self) -> bool {
        self.quantifier == Quantifier::Exists
    }
}

#[derive(Clone, PartialEq, Eq, Debug, Default, Hash)]
pub struct Formula {
    pub prefix: Vec<Bound>,
    pub clauses: Vec<Clause>,
}

impl Formula {
    pub fn literals(&self) -> usize {
        self.clauses.iter().map(|c| c.len()).sum()
    }

    /// Weight = variables + clauses + literals.
    pub fn weight(&self) -> usize {
        self.prefix.len() + self.clauses.len() + self.literals()
    }

    pub fn universals(&self) -> usize {
        self.prefix.iter().filter(|b| !b.is_existential()).count()
    }

    /// Does it pass no limit? A variable numbered over 1,023 passes that of variables.
    pub fn fits(&self) -> bool {
        self.prefix.len() <= limits::VARIABLES
            && self.prefix.iter().all(|b| b.var as usize <= limits::VARIABLES)
            && self.clauses.len() <= limits::CLAUSES
            && self.literals() <= limits::LITERALS
    }

    pub fn places(&self) -> Places {
        Places::new(&self.prefix)
    }

    /// The prefix without one variable.
    pub fn prefix_without(&self, v: Var) -> Vec<Bound> {
        self.prefix.iter().copied().filter(|b| b.var != v).collect()
    }
}

/// Where each variable stands in a prefix. Left is a smaller place, right a greater one.
pub struct Places {
    at: Vec<Option<(usize, Quantifier)>>,
}

impl Places {
    pub fn new(prefix: &[Bound]) -> Places {
        let most = prefix.iter().map(|b| b.var).max().unwrap_or(0) as usize;
        let mut at = vec![None; most + 1];
        for (place, b) in prefix.iter().enumerate() {
            at[b.var as usize] = Some((place, b.quantifier));
        }
        Places { at }
    }

    pub fn find(&self, v: Var) -> Option<(usize, Quantifier)> {
        self.at.get(v as usize).copied().flatten()
    }

    /// The place of a variable that stands in the prefix.
    pub fn place(&self, v: Var) -> usize {
        self.find(v).expect("a variable of the prefix").0
    }

    pub fn is_existential(&self, v: Var) -> bool {
        self.find(v).expect("a variable of the prefix").1 == Quantifier::Exists
    }
}

/// A list of clauses that is built in order; a clause equal to one already in it is dropped.
#[derive(Default)]
pub struct Building {
    list: Vec<Clause>,
    seen: HashSet<Clause>,
    literals: usize,
}

impl Building {
    pub fn push(&mut self, clause: Clause) {
        if self.seen.insert(clause.clone()) {
            self.literals += clause.len();
            self.list.push(clause);
        }
    }

    /// `None` stands for a clause that tidying dropped.
    pub fn push_tidied(&mut self, clause: Option<Clause>) {
        if let Some(c) = clause {
            self.push(c);
        }
    }

    /// How many literals the list holds.
    pub fn literals(&self) -> usize {
        self.literals
    }

    pub fn done(self) -> Vec<Clause> {
        self.list
    }
}
