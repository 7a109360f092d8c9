//! Set `solver`: small and medium formulas that a second solver decides in well under a second each. About half are true.

use crate::draw::Draw;
use crate::formula::Formula;
use crate::interlock::{interlock, Defect, Plan};
use crate::judge::truth;
use crate::ladder::ladder;
use crate::output::Entry;
use crate::random;
use crate::rewrite::{renumbered, untidied};
use crate::sets::{bench, public, published};
use crate::switch::switch;

pub fn entries() -> Vec<Entry> {
    let mut entries = public::entries();
    judged(&mut entries, "random_tiny", 700, (2, 11), 20_000);
    judged(&mut entries, "random_small", 300, (12, 18), 30_000);
    odd(&mut entries, 300);
    medium(&mut entries, 300);
    tables(&mut entries, 480);
    ladders(&mut entries);
    switches(&mut entries);
    large(&mut entries);
    for (name, family, truth, formula) in published::published() {
        // As defined, and twice with other numbers and orders.
        let says = format!("{family}, truth by theory");
        for (tail, largest, seed) in [("", 0, 0), ("_renumbered", formula.largest, 1), ("_spread", 1023, 2)] {
            let written = if tail.is_empty() { formula.clone() } else { renumbered(&formula, largest, seed) };
            entries.push(Entry::new(format!("{name}{tail}"), family, Some(truth), says.clone(), written));
        }
    }
    entries
}

/// A random formula whose truth is as wanted where forty draws find one; the number of clauses follows what was found.
fn drawn(draw: &mut Draw, least: usize, most: usize, wanted: bool) -> (Formula, bool) {
    let n = draw.between(least, most);
    let blocks = draw.between(1, n.min(7));
    let shape = random::shape(draw, n, blocks);
    let mut clauses = draw.between(n / 2 + 1, 3 * n);
    let (low, high) = [(1, 3), (2, 3), (2, 4), (3, 3), (3, 5)][draw.below(5)];
    let bare = if draw.chance(1, 8) { 20 } else { 0 };
    let mut formula = random::any(draw, &shape, clauses, low, high, bare);
    let mut found = truth(&formula);
    for _ in 0..40 {
        if found == wanted {
            break;
        }
        clauses = if wanted { (clauses - clauses / 8 - 1).max(1) } else { clauses + clauses / 8 + 1 };
        formula = random::any(draw, &shape, clauses, low, high, bare);
        found = truth(&formula);
    }
    (formula, found)
}

/// Formulas of any prefix shape, of seven blocks at most, judged by the game meaning.
fn judged(entries: &mut Vec<Entry>, family: &'static str, count: usize, (least, most): (usize, usize), seed: u64) {
    for i in 0..count {
        let mut draw = Draw::new(seed + i as u64);
        let (formula, found) = drawn(&mut draw, least, most, i % 2 == 0);
        let formula = if i % 3 == 0 { renumbered(&formula, 60, seed) } else { formula };
        let says = "random, any prefix, truth by the game meaning".to_string();
        entries.push(Entry::new(format!("{family}_{i}"), family, Some(found), says, formula));
    }
}

/// Formulas as reading takes them but tidy writers don't write them: comments, repeats, both phases, empty clauses, split
/// lines, prefixes of one kind, variables in no clause, formulas without clauses.
fn odd(entries: &mut Vec<Entry>, count: usize) {
    for i in 0..count {
        let mut draw = Draw::new(40_000 + i as u64);
        let (mut formula, _) = drawn(&mut draw, 2, 10, i % 2 == 0);
        match i % 10 {
            0 => formula.clauses.push(Vec::new()),
            1 => formula.clauses.clear(),
            2 => {
                let n = draw.between(1, 8) as i32;
                formula = random::any(&mut draw, &[if i % 4 == 2 { n } else { -n }], 6, 1, 3, 1);
            }
            3 | 4 => {
                formula.forall(draw.between(1, 3));
                formula.exists(draw.between(0, 2));
            }
            _ => {}
        }
        let found = truth(&formula);
        let formula = untidied(&renumbered(&formula, [20, 300, 1019][i % 3], i as u64), i as u64);
        let says = "random, written untidily, truth by the game meaning".to_string();
        let mut entry = Entry::new(format!("odd_{i}"), "odd", Some(found), says, formula);
        if i % 4 == 0 {
            entry.comments = "c a comment\nc p cnf 1 1\ncomment 0\n".to_string();
        }
        entries.push(entry);
    }
}

/// Chen and Interian's model with two and three blocks, and 3-CNF over longer prefixes: too large for the judge.
fn medium(entries: &mut Vec<Entry>, count: usize) {
    for i in 0..count {
        let mut draw = Draw::new(50_000 + i as u64);
        let n = draw.between(10, 30) as i32;
        let (formula, says) = match i % 6 {
            0 => (random::by_blocks(&mut draw, &[-n, n], &[1, 2], (n + n / 4) as usize), "forall exists, (1, 2) literals"),
            1 => (random::by_blocks(&mut draw, &[-n, n], &[1, 3], (3 * n) as usize), "forall exists, (1, 3) literals"),
            2 => (
                random::by_blocks(&mut draw, &[n, -n, n], &[1, 1, 2], (2 * n) as usize),
                "exists forall exists, (1, 1, 2) literals",
            ),
            3 => (
                random::by_blocks(&mut draw, &[n / 2, -n / 2, n], &[2, 1, 2], (3 * n) as usize),
                "exists forall exists, (2, 1, 2) literals",
            ),
            4 => {
                let blocks = draw.between(2, 9);
                let shape = random::shape(&mut draw, 2 * n as usize, blocks);
                let clauses = draw.between(n as usize, 5 * n as usize);
                (random::any(&mut draw, &shape, clauses, 2, 4, 0), "any prefix")
            }
            _ => {
                let clauses = draw.between(6, 14) * n as usize;
                (random::three(&mut draw, &[3 * n], clauses), "3-CNF, existential")
            }
        };
        let formula = if i % 2 == 0 { formula } else { renumbered(&formula, 1023, 51_000 + i as u64) };
        entries.push(Entry::new(format!("random_medium_{i}"), "random_medium", None, format!("random, {says}"), formula));
    }
}

/// Interlock tables from 2 to 15 readings, with and without stages; three of six with a defect.
fn tables(entries: &mut Vec<Entry>, count: usize) {
    for i in 0..count {
        let mut draw = Draw::new(60_000 + i as u64);
        let readings = 2 + i * 13 / count + draw.below(2);
        let drives = draw.between(readings + 4, 4 * readings + 8);
        let gates = draw.between(readings, 4 * readings);
        let defect = [Defect::None, Defect::Clash, Defect::None, Defect::TooEarly, Defect::None, Defect::Clash][i % 6];
        let stages = i % 4 != 0 || defect == Defect::TooEarly;
        let rows = drives * draw.between(2, 5);
        let formula = interlock(Plan { readings, drives, gates, rows, stages, defect, seed: 61_000 + i as u64 });
        let formula = if i % 2 == 0 { formula } else { renumbered(&formula, 1023, 62_000 + i as u64) };
        let (truth, kind) = match defect {
            Defect::None => (true, "good"),
            Defect::Clash => (false, "clash"),
            Defect::TooEarly => (false, "early"),
        };
        let says = format!("interlock table of {readings} readings, {drives} drives, {gates} gates: {kind}");
        entries.push(Entry::new(format!("interlock_{kind}_{i}"), "interlock", Some(truth), says, formula));
    }
}

fn ladders(entries: &mut Vec<Entry>) {
    for i in 0..80 {
        let n = 2 + i / 4;
        let defect = i % 2 == 1;
        let formula = ladder(n, 3 + i % 5, defect, 70_000 + i as u64);
        let says = format!("a ladder of {n} rungs{}", if defect { ", one broken" } else { "" });
        entries.push(Entry::new(format!("ladder_{i}"), "ladder", Some(!defect), says, formula));
    }
}

/// Formulas at the edge of the room for an expansion: with 511 existentials and one in front the result would have 1,023
/// variables, but a copy would be numbered 1,024.
fn switches(entries: &mut Vec<Entry>) {
    for (outer, n) in [(0, 511), (0, 512), (1, 510), (1, 511), (2, 510), (3, 510), (1, 530), (1, 560)] {
        let says = format!("a universal in every clause, {outer} existentials in front, {n} behind");
        let formula = switch(outer, n, 80_000 + (outer * n) as u64);
        entries.push(Entry::new(format!("switch_{outer}_{n}"), "switch", None, says, formula));
    }
}

/// Full-size inputs of set `bench`, as far as the second solver decides them, or what the preprocessor leaves of them, at
/// once.
fn large(entries: &mut Vec<Entry>) {
    let names = [
        "interlock_14r_120d_100g",
        "interlock_20r_150d_190g",
        "interlock_28r_220d_250g",
        "interlock_40r_300d_380g",
        "interlock_early_40r_300d_380g",
        "random3_e_1000v_2000c",
        "random3_ae_1000v_2000c",
        "ladder_160",
        "units_500",
        "equalities_500",
        "equality_interleaved_341",
        "completion_true_21",
        "kbkf_true_255",
        "qparity_true_255",
        "completion_21",
        "lqparity_128",
    ];
    let bench = bench::entries();
    let before = entries.len();
    entries.extend(bench.into_iter().filter(|entry| names.contains(&entry.name.as_str())).map(|entry| Entry {
        name: format!("large_{}", entry.name),
        family: "large",
        ..entry
    }));
    assert_eq!(entries.len() - before, names.len(), "a name is not in set bench");
}
