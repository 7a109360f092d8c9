//! A table under construction: its variables, each with its planted value, and gates with their defining clauses.

use crate::formula::Formula;

#[derive(Clone)]
pub enum Source {
    Reading(u32),
    Constant(bool),
    And(Vec<(usize, bool)>),
    Xor((usize, bool), (usize, bool)),
}

/// A variable of the table with its planted value: `seen` has a bit for each reading the value hangs on.
pub struct Signal {
    pub variable: i32,
    pub source: Source,
    pub seen: u64,
    pub stage: usize,
}

/// `blocks` are the existential blocks of the stages; `gates` counts the gates.
pub struct Table {
    pub formula: Formula,
    pub signals: Vec<Signal>,
    pub blocks: Vec<usize>,
    pub gates: usize,
}

impl Table {
    fn value(&self, at: usize, readings: u64) -> bool {
        match &self.signals[at].source {
            Source::Reading(bit) => readings >> bit & 1 == 1,
            Source::Constant(value) => *value,
            Source::And(inputs) => inputs.iter().all(|&(input, plain)| self.value(input, readings) == plain),
            Source::Xor(a, b) => (self.value(a.0, readings) == a.1) != (self.value(b.0, readings) == b.1),
        }
    }

    /// Whether one of the literals is true for all readings; with `all`, whether all are true for some.
    pub fn holds(&self, literals: &[(usize, bool)], all: bool) -> bool {
        let seen = literals.iter().fold(0, |seen, &(at, _)| seen | self.signals[at].seen);
        let mut readings = 0u64;
        loop {
            let mut values = literals.iter().map(|&(at, plain)| self.value(at, readings) == plain);
            let met = if all { values.all(|v| v) } else { values.any(|v| v) };
            if met == all {
                return all;
            }
            // The next choice of the bits in `seen`.
            readings = readings.wrapping_sub(seen) & seen;
            if readings == 0 {
                return !all;
            }
        }
    }

    pub fn add(&mut self, source: Source, stage: usize, block: usize) -> usize {
        let seen = match &source {
            Source::Reading(bit) => 1 << bit,
            Source::Constant(_) => 0,
            Source::And(inputs) => inputs.iter().fold(0, |seen, &(at, _)| seen | self.signals[at].seen),
            Source::Xor(a, b) => self.signals[a.0].seen | self.signals[b.0].seen,
        };
        let variable = self.formula.variable(block);
        self.signals.push(Signal { variable, source, seen, stage });
        self.signals.len() - 1
    }

    pub fn literal(&self, (at, plain): (usize, bool)) -> i32 {
        if plain {
            self.signals[at].variable
        } else {
            -self.signals[at].variable
        }
    }

    /// A gate: a signal with its defining clauses (Tseitin).
    pub fn gate(&mut self, source: Source) -> usize {
        let stage = match &source {
            Source::And(inputs) => inputs.iter().map(|&(at, _)| self.signals[at].stage).max().unwrap_or(0),
            Source::Xor(a, b) => self.signals[a.0].stage.max(self.signals[b.0].stage),
            _ => unreachable!("a gate has inputs"),
        };
        let at = self.add(source.clone(), stage, self.blocks[stage]);
        self.gates += 1;
        let o = self.signals[at].variable;
        match source {
            Source::And(inputs) => {
                let mut long = vec![o];
                for input in inputs {
                    self.formula.clause(&[-o, self.literal(input)]);
                    long.push(-self.literal(input));
                }
                self.formula.clause(&long);
            }
            Source::Xor(a, b) => {
                let (a, b) = (self.literal(a), self.literal(b));
                for clause in [[-a, -b, -o], [a, b, -o], [-a, b, o], [a, -b, o]] {
                    self.formula.clause(&clause);
                }
            }
            _ => unreachable!(),
        }
        at
    }

    pub fn or(&mut self, a: (usize, bool), b: (usize, bool)) -> (usize, bool) {
        (self.gate(Source::And(vec![(a.0, !a.1), (b.0, !b.1)])), false)
    }

    /// Two out of three: (a and b) or (c and (a or b)).
    pub fn vote(&mut self, a: (usize, bool), b: (usize, bool), c: (usize, bool)) -> (usize, bool) {
        let both = self.gate(Source::And(vec![a, b]));
        let either = self.or(a, b);
        let third = self.gate(Source::And(vec![c, either]));
        self.or((both, true), (third, true))
    }
}
