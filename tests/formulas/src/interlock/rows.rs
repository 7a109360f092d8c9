//! The rows of an interlock table.

use super::table::Table;
use super::Plan;
use crate::draw::Draw;

/// The rows: clauses of two to five literals on one to three drives and the signals near them, as short as the strategy lets
/// them be.
pub fn rows(table: &mut Table, draw: &mut Draw, plan: &Plan, named: &[usize], drives: &[usize]) {
    let mut made = 0;
    let mut tries = 0;
    // Room is left for the rows of a defect.
    while made < plan.rows && tries < 400 * plan.rows && table.formula.clauses.len() < 2040 && table.formula.literals() < 8170 {
        tries += 1;
        let first = drives[made % drives.len()];
        let mut row = vec![(first, draw.chance(1, 2))];
        let mut seen = table.signals[first].seen;
        let wanted = draw.between(3, 5);
        for _ in 0..60 {
            if row.len() == wanted {
                break;
            }
            let next = if draw.chance(1, 2) { draw.pick(drives) } else { draw.pick(named) };
            let signal = &table.signals[next];
            let with = seen | signal.seen;
            let near = seen == 0 || signal.seen == 0 || seen & signal.seen != 0;
            if near && with.count_ones() <= 10 && row.iter().all(|&(at, _)| at != next) {
                seen = with;
                row.push((next, draw.chance(1, 2)));
            }
        }
        if row.len() < 2 || !table.holds(&row, false) {
            continue;
        }
        let mut place = row.len();
        while place > 1 {
            place -= 1;
            let mut less = row.clone();
            less.remove(place);
            if less.len() >= 2 && draw.chance(7, 8) && table.holds(&less, false) {
                row = less;
            }
        }
        let clause: Vec<i32> = row.iter().map(|&literal| table.literal(literal)).collect();
        table.formula.clause(&clause);
        made += 1;
    }
}
