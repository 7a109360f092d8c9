//! The same formula written otherwise: its truth stays, but numbers, places and repeats differ, so that a verdict that hangs
//! on them shows. Every odd thing here is allowed by document 01's reading.

use crate::draw::Draw;
use crate::formula::{Block, Formula};

/// New variable numbers up to `largest`, other orders within blocks, of clauses and in clauses.
pub fn renumbered(formula: &Formula, largest: i32, seed: u64) -> Formula {
    let mut draw = Draw::new(seed);
    let mut numbers: Vec<i32> = (1..=largest.max(formula.largest)).collect();
    draw.shuffle(&mut numbers);
    let renamed = |literal: i32| numbers[literal.unsigned_abs() as usize - 1] * literal.signum();
    let mut prefix: Vec<Block> = formula.prefix.clone();
    for block in &mut prefix {
        for variable in &mut block.variables {
            *variable = renamed(*variable);
        }
        draw.shuffle(&mut block.variables);
    }
    let mut clauses: Vec<Vec<i32>> =
        formula.clauses.iter().map(|clause| clause.iter().map(|&literal| renamed(literal)).collect()).collect();
    for clause in &mut clauses {
        draw.shuffle(clause);
    }
    draw.shuffle(&mut clauses);
    let largest = prefix.iter().flat_map(|block| block.variables.iter().copied()).max().unwrap_or(0);
    Formula { prefix, clauses, largest }
}

/// Literals repeated, clauses repeated, clauses with both phases of a variable, blocks split into several lines of one kind,
/// and an M above the largest variable.
pub fn untidied(formula: &Formula, seed: u64) -> Formula {
    let mut draw = Draw::new(seed);
    let mut out = Formula { prefix: Vec::new(), clauses: Vec::new(), largest: formula.largest + draw.below(4) as i32 };
    for block in &formula.prefix {
        let mut rest = &block.variables[..];
        while !rest.is_empty() {
            let (line, after) = rest.split_at(draw.between(1, rest.len()));
            out.prefix.push(Block { quantifier: block.quantifier, variables: line.to_vec() });
            rest = after;
        }
    }
    for clause in &formula.clauses {
        let mut written = clause.clone();
        if !written.is_empty() && draw.chance(1, 4) {
            written.push(draw.pick(clause));
        }
        draw.shuffle(&mut written);
        out.clauses.push(written.clone());
        if draw.chance(1, 6) {
            draw.shuffle(&mut written);
            out.clauses.push(written.clone());
        }
        if !clause.is_empty() && draw.chance(1, 6) {
            written.push(-draw.pick(clause));
            out.clauses.push(written);
        }
    }
    out
}
