//! Random formulas: of any prefix shape, and by the model of H. Chen and Y. Interian, "A Model for Generating Random
//! Quantified Boolean Formulas", IJCAI 2005, in which each clause has a fixed number of literals from each block.

use crate::draw::Draw;
use crate::formula::{Formula, Quantifier};

/// The prefix as signed block sizes: 3 is three existentials, -3 three universals.
pub fn prefix(shape: &[i32]) -> (Formula, Vec<Vec<i32>>) {
    let mut formula = Formula::new();
    let mut blocks = Vec::new();
    for &size in shape {
        let n = size.unsigned_abs() as usize;
        blocks.push(if size > 0 { formula.exists(n) } else { formula.forall(n) });
    }
    (formula, blocks)
}

/// A shape of n variables in the given number of blocks, of either kind at either end.
pub fn shape(draw: &mut Draw, n: usize, blocks: usize) -> Vec<i32> {
    let mut sizes = vec![1; blocks];
    for _ in blocks..n {
        sizes[draw.below(blocks)] += 1;
    }
    let mut sign = if draw.chance(1, 2) { 1 } else { -1 };
    for size in &mut sizes {
        *size *= sign;
        sign = -sign;
    }
    sizes
}

/// Clauses of `low` to `high` literals of different variables. A clause without an existential would be the empty one once it
/// is tidied, so all but one in `bare` (0 for none) get an existential where the prefix has one.
pub fn any(draw: &mut Draw, shape: &[i32], clauses: usize, low: usize, high: usize, bare: usize) -> Formula {
    let (mut formula, blocks) = prefix(shape);
    let all: Vec<i32> = blocks.concat();
    let existentials: Vec<i32> = formula
        .prefix
        .iter()
        .filter(|block| block.quantifier == Quantifier::Exists)
        .flat_map(|block| block.variables.clone())
        .collect();
    for _ in 0..clauses {
        let length = draw.between(low, high).min(all.len());
        let mut chosen = draw.several(&all, length);
        let keep = bare > 0 && draw.chance(1, bare);
        if !keep && !existentials.is_empty() && !chosen.iter().any(|variable| existentials.contains(variable)) {
            chosen[0] = draw.pick(&existentials);
        }
        let clause: Vec<i32> = chosen.iter().map(|&variable| draw.sign(variable)).collect();
        formula.clause(&clause);
    }
    formula
}

/// Chen and Interian: clauses with `from[i]` literals of different variables of block i.
pub fn by_blocks(draw: &mut Draw, shape: &[i32], from: &[usize], clauses: usize) -> Formula {
    let (mut formula, blocks) = prefix(shape);
    for _ in 0..clauses {
        let mut clause = Vec::new();
        for (block, &k) in blocks.iter().zip(from) {
            clause.extend(draw.several(block, k).iter().map(|&variable| draw.sign(variable)));
        }
        formula.clause(&clause);
    }
    formula
}

/// 3-CNF over the whole prefix with at most one universal a clause: with more, chance alone would soon make a clause false.
pub fn three(draw: &mut Draw, shape: &[i32], clauses: usize) -> Formula {
    let (mut formula, blocks) = prefix(shape);
    let all: Vec<i32> = blocks.concat();
    let universals: Vec<i32> =
        blocks.iter().zip(shape).filter(|(_, &size)| size < 0).flat_map(|(block, _)| block.clone()).collect();
    while formula.clauses.len() < clauses {
        let chosen = draw.several(&all, 3);
        if chosen.iter().filter(|variable| universals.contains(variable)).count() <= 1 {
            let clause: Vec<i32> = chosen.iter().map(|&variable| draw.sign(variable)).collect();
            formula.clause(&clause);
        }
    }
    formula
}
