//! Rows that make an interlock table false. The rows that were there can only make it more so.

use super::table::{Source, Table};
use crate::draw::Draw;

/// Three signals that can all be as `wanted` at once; under them the rows force three drives one after the other, then forbid
/// the last.
pub fn clash(table: &mut Table, draw: &mut Draw, named: &[usize], drives: &[usize]) {
    let drives: Vec<(usize, bool)> = draw.several(drives, 3).iter().map(|&at| (at, draw.chance(1, 2))).collect();
    let wanted: Vec<(usize, bool)> = loop {
        let wanted: Vec<(usize, bool)> = draw.several(named, 3).iter().map(|&at| (at, draw.chance(1, 2))).collect();
        let seen = wanted.iter().fold(0u64, |seen, &(at, _)| seen | table.signals[at].seen);
        if seen.count_ones() <= 16 && table.holds(&wanted, true) {
            break wanted;
        }
    };
    let when: Vec<i32> = wanted.iter().map(|&literal| -table.literal(literal)).collect();
    let chain: Vec<i32> = drives.iter().map(|&literal| table.literal(literal)).collect();
    table.formula.clause(&[when[0], chain[0]]);
    for k in 1..chain.len() {
        table.formula.clause(&[when[k % when.len()], -chain[k - 1], chain[k]]);
    }
    table.formula.clause(&[when[0], when[when.len() - 1], -chain[chain.len() - 1]]);
}

/// A drive of stage 0 or 1 made equal, by way of two late drives, to a reading to its right.
pub fn too_early(table: &mut Table, draw: &mut Draw, late: &[usize], drives: &[usize]) {
    let readings: Vec<usize> =
        late.iter().copied().filter(|&at| matches!(table.signals[at].source, Source::Reading(_))).collect();
    let q = table.signals[draw.pick(&readings)].variable;
    let early: Vec<usize> = drives.iter().copied().filter(|&at| table.signals[at].stage < 2).collect();
    let others: Vec<usize> = drives.iter().copied().filter(|&at| table.signals[at].stage == 2).collect();
    assert!(!early.is_empty() && others.len() >= 2, "a table with stages has early and late drives");
    let d = table.signals[draw.pick(&early)].variable;
    let between = draw.several(&others, 2);
    let (x, y) = (table.signals[between[0]].variable, table.signals[between[1]].variable);
    for clause in [[-q, x], [-x, d], [-d, y], [-y, q]] {
        table.formula.clause(&clause);
    }
}
