//! Interlock tables: for all readings, with sensors that may be stuck, is there a permitted drive pattern? Readings are
//! universal, drives and gates existential; some drives are set before some readings come in. A table is made from a planted
//! strategy (each drive a function of what it may see), and its rows are random clauses that the strategy always meets: so a
//! good table is true. A defect adds a few rows that no drive pattern meets for some readings: then it is false.

mod defects;
mod rows;
mod sensors;
mod table;

use crate::draw::Draw;
use crate::formula::{Formula, Quantifier};
use table::{Source, Table};

#[derive(Clone, Copy, PartialEq, Eq, Debug)]
pub enum Defect {
    None,
    /// For some readings rows demand, through three drives, a drive to be on and to be off.
    Clash,
    /// A drive has to follow a reading that comes in only after it is set.
    TooEarly,
}

#[derive(Clone, Copy)]
pub struct Plan {
    /// Universals: quantities and the bits that say whether a sensor is stuck.
    pub readings: usize,
    pub drives: usize,
    /// Gates: effective readings, votes of two out of three, and others drawn by chance.
    pub gates: usize,
    pub rows: usize,
    /// Whether some drives are set before all readings and some before the fast ones: e..a..e..a..e; else a..e.
    pub stages: bool,
    pub defect: Defect,
    pub seed: u64,
}

/// A function of one to three of the named signals that hang on at most `most` readings together.
fn function(table: &Table, draw: &mut Draw, named: &[usize], least: usize, most: u32) -> Source {
    loop {
        let first = draw.pick(named);
        let mut inputs = vec![(first, draw.chance(1, 2))];
        let mut seen = table.signals[first].seen;
        let wanted = draw.between(least, 3);
        for _ in 0..8 {
            let next = draw.pick(named);
            let with = seen | table.signals[next].seen;
            if inputs.len() < wanted && with.count_ones() <= most && inputs.iter().all(|&(at, _)| at != next) {
                inputs.push((next, draw.chance(1, 2)));
                seen = with;
            }
        }
        if inputs.len() < least {
            continue;
        }
        if inputs.len() == 2 && draw.chance(1, 5) {
            return Source::Xor(inputs[0], inputs[1]);
        }
        return Source::And(inputs);
    }
}

pub fn interlock(plan: Plan) -> Formula {
    let mut draw = Draw::new(plan.seed);
    let mut formula = Formula::new();
    let masters = formula.block(Quantifier::Exists);
    let slow = formula.block(Quantifier::Forall);
    let middle = formula.block(Quantifier::Exists);
    let fast = formula.block(Quantifier::Forall);
    let inner = formula.block(Quantifier::Exists);
    // Stage 0: before all readings; 1: with the slow ones known; 2: with all known.
    let mut table = Table { formula, signals: Vec::new(), blocks: vec![masters, middle, inner], gates: 0 };

    let slow_count = if plan.stages { plan.readings / 2 } else { 0 };
    let early = sensors::sensors(&mut table, &mut draw, &plan, 1, slow, slow_count, 0);
    let late = sensors::sensors(&mut table, &mut draw, &plan, 2, fast, plan.readings - slow_count, slow_count as u32);
    let mut named_early = early.clone();
    let mut named: Vec<usize> = [early, late.clone()].concat();
    while table.gates < plan.gates {
        let from = if plan.stages && named_early.len() > 1 && draw.chance(1, 3) { &named_early } else { &named };
        if from.len() < 2 {
            break;
        }
        let source = function(&table, &mut draw, from, 2.min(from.len()), 6);
        let at = table.gate(source);
        named.push(at);
        if table.signals[at].stage <= 1 && plan.stages {
            named_early.push(at);
        }
    }

    let mut drives = Vec::new();
    for _ in 0..plan.drives {
        let stage = if !plan.stages { 2 } else { [0, 1, 1, 2, 2, 2, 2, 2][draw.below(8)] };
        let source = match stage {
            0 => Source::Constant(draw.chance(1, 2)),
            1 if !named_early.is_empty() => function(&table, &mut draw, &named_early, 1, 6),
            1 => Source::Constant(draw.chance(1, 2)),
            _ => function(&table, &mut draw, &named, 1, 6),
        };
        drives.push(table.add(source, stage, table.blocks[stage]));
    }

    rows::rows(&mut table, &mut draw, &plan, &named, &drives);
    match plan.defect {
        Defect::None => {}
        Defect::Clash => defects::clash(&mut table, &mut draw, &named, &drives),
        Defect::TooEarly => defects::too_early(&mut table, &mut draw, &late, &drives),
    }
    draw.shuffle(&mut table.formula.clauses);
    table.formula
}
