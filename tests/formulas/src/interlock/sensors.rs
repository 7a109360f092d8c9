//! The sensors of an interlock table, and what becomes of their readings when some are stuck.

use super::table::{Source, Table};
use super::Plan;
use crate::draw::Draw;

/// The sensors: quantities with no stuck bit, with one (the sensor shows 1, or 0, when it is stuck), or three sensors of one
/// quantity with a stuck bit each and a vote. Given: the signals that rows may name; the last of a vote says that more than
/// one sensor is stuck.
pub fn sensors(
    table: &mut Table,
    draw: &mut Draw,
    plan: &Plan,
    stage: usize,
    universal: usize,
    count: usize,
    first: u32,
) -> Vec<usize> {
    let mut named = Vec::new();
    let mut bit = first;
    let end = first + count as u32;
    while bit < end {
        let quantity = table.add(Source::Reading(bit), stage, universal);
        bit += 1;
        named.push(quantity);
        let gates_left = plan.gates.saturating_sub(table.gates);
        if end - bit >= 3 && gates_left >= 12 && draw.chance(1, 3) {
            let stuck: Vec<usize> = (0..3).map(|k| table.add(Source::Reading(bit + k), stage, universal)).collect();
            bit += 3;
            let shown: Vec<(usize, bool)> = stuck.iter().map(|&s| shows(table, draw, quantity, s)).collect();
            let vote = table.vote(shown[0], shown[1], shown[2]);
            let excess = table.vote((stuck[0], true), (stuck[1], true), (stuck[2], true));
            named.extend([vote.0, excess.0]);
        } else if end - bit >= 1 && gates_left >= 1 && draw.chance(1, 2) {
            let stuck = table.add(Source::Reading(bit), stage, universal);
            bit += 1;
            named.push(shows(table, draw, quantity, stuck).0);
        }
    }
    named
}

/// What a sensor shows: the quantity, or 1 (or 0) when it is stuck.
fn shows(table: &mut Table, draw: &mut Draw, quantity: usize, stuck: usize) -> (usize, bool) {
    if draw.chance(1, 2) {
        table.or((quantity, true), (stuck, true))
    } else {
        (table.gate(Source::And(vec![(quantity, true), (stuck, false)])), true)
    }
}
