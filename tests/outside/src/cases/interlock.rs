//! Formulas as the interlock tables give them: readings are universal, drives existential; some drives are chosen before
//! some readings; gates between are existential and stand at the right end.

use super::formulas::of_raw;
use crate::model::formula::{exists, forall, opposite, plain, Bound, Clause, Formula, Lit};
use crate::rng::Rng;

pub fn interlock(rng: &mut Rng, readings: usize, drives: usize, gates: usize, rules: usize) -> Formula {
    let mut next = 1;
    let mut fresh = || {
        next += 1;
        next - 1
    };
    let mut outer: Vec<Bound> = Vec::new();
    let mut signals: Vec<u32> = Vec::new();
    for _ in 0..readings {
        outer.push(forall(fresh()));
    }
    for _ in 0..drives {
        // A drive chosen early stands before some readings.
        let place = if rng.once_in(3) { rng.below(outer.len() + 1) } else { outer.len() };
        outer.insert(place, exists(fresh()));
    }
    signals.extend(outer.iter().map(|b| b.var));

    let mut raw: Vec<Clause> = Vec::new();
    for _ in 0..gates {
        let gate = fresh();
        let inputs: Vec<Lit> = (0..rng.from(1, 3)).map(|_| signal(rng, &signals)).collect();
        raw.extend(gate_clauses(rng, plain(gate), &inputs));
        outer.push(exists(gate));
        signals.push(gate);
    }
    for _ in 0..rules {
        let length = rng.from(1, 4);
        raw.push((0..length).map(|_| signal(rng, &signals)).collect());
    }
    if rng.coin() {
        rng.shuffle(&mut raw);
    }
    of_raw(outer, &raw)
}

fn signal(rng: &mut Rng, signals: &[u32]) -> Lit {
    plain(*rng.pick(signals)) + rng.below(2) as u32
}

/// The gate's literal says that all of its inputs are true, or that one of them is.
fn gate_clauses(rng: &mut Rng, gate: Lit, inputs: &[Lit]) -> Vec<Clause> {
    let and = rng.coin();
    let (out, ins): (Lit, Vec<Lit>) =
        if and { (gate, inputs.to_vec()) } else { (opposite(gate), inputs.iter().map(|&l| opposite(l)).collect()) };
    let mut clauses: Vec<Clause> = ins.iter().map(|&l| vec![opposite(out), l]).collect();
    let mut whole: Clause = ins.iter().map(|&l| opposite(l)).collect();
    whole.push(out);
    clauses.push(whole);
    clauses
}
