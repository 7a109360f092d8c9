//! Entries for a formula: permitted ones of each kind, near misses, unused bits set, and any 32 bits.

use crate::model::entry::{entry, uses_b, Entry};
use crate::model::formula::{opposite, var, Formula};
use crate::model::steps::whole;
use crate::rng::Rng;

/// An entry of the kind with indexes and variables that are there, or nearly.
pub fn near(rng: &mut Rng, f: &Formula, kind: u32) -> Entry {
    match kind {
        1 => entry(1, clause(rng, f), 0),
        2 | 6 | 7 => entry(kind, variable(rng, f, kind), 0),
        4 if rng.coin() => nearly_a_part(rng, f),
        _ => {
            let a = clause(rng, f);
            let b = if rng.once_in(15) { a } else { clause(rng, f) };
            entry(kind, a, b)
        }
    }
}

/// A clause index, at times one past the last or any other.
fn clause(rng: &mut Rng, f: &Formula) -> u32 {
    match rng.below(12) {
        0 => f.clauses.len().min(2047) as u32,
        1 => rng.below(2048) as u32,
        _ => rng.below(f.clauses.len().max(1)) as u32,
    }
}

/// A variable of the prefix, most times with the quantifier that the kind asks for; at times one that may not be there.
fn variable(rng: &mut Rng, f: &Formula, kind: u32) -> u32 {
    let wanted: Vec<u32> = f.prefix.iter().filter(|b| b.is_existential() == (kind == 6)).map(|b| b.var).collect();
    match rng.below(12) {
        0 => 0,
        1 => rng.below(2048) as u32,
        2 => 1 + rng.below(12) as u32,
        _ if f.prefix.is_empty() => 1,
        3..=8 if kind >= 6 && !wanted.is_empty() => *rng.pick(&wanted),
        _ => rng.pick(&f.prefix).var,
    }
}

/// Kind 4 with a clause that is a part of the other but for one turned literal, whatever its quantifier: with a universal one
/// the step is not permitted.
fn nearly_a_part(rng: &mut Rng, f: &Formula) -> Entry {
    let mut pairs = Vec::new();
    for (a, first) in f.clauses.iter().enumerate() {
        for (b, second) in f.clauses.iter().enumerate() {
            let turned = first.iter().filter(|&&l| second.contains(&opposite(l))).count();
            if turned == 1 && first.iter().all(|&l| second.contains(&l) || second.contains(&opposite(l))) {
                pairs.push(entry(4, a as u32, b as u32));
            }
        }
    }
    let places = f.places();
    let universal = |e: &Entry| {
        let turned = |l: &&u32| f.clauses[e.b as usize].contains(&opposite(**l));
        f.clauses[e.a as usize].iter().find(turned).is_some_and(|&l| !places.is_existential(var(l)))
    };
    let with_universal: Vec<Entry> = pairs.iter().copied().filter(universal).collect();
    if !with_universal.is_empty() {
        *rng.pick(&with_universal)
    } else if !pairs.is_empty() {
        *rng.pick(&pairs)
    } else {
        entry(4, clause(rng, f), clause(rng, f))
    }
}

/// A permitted entry with one thing about it changed: a and b the other way around, another kind, one more or one less.
pub fn beside(rng: &mut Rng, good: Entry) -> Entry {
    let mut e = good;
    match rng.below(5) {
        0 | 1 => (e.a, e.b) = (good.b, good.a),
        2 => e.kind = rng.from(1, 7) as u32,
        3 => e.a = (good.a + 1) % 2048,
        _ => e.b = (good.b + 1) % 2048,
    }
    if !uses_b(e.kind) {
        e.b = 0;
    }
    e
}

/// Permitted entries of the kind: all of them for a small formula, some of them for a large one.
pub fn permitted(f: &Formula, kind: u32) -> Vec<Entry> {
    let clauses: Vec<u32> = (0..f.clauses.len() as u32).collect();
    let variables: Vec<u32> = f.prefix.iter().map(|b| b.var).collect();
    let entries: Vec<Entry> = match kind {
        1 => clauses.iter().map(|&a| entry(1, a, 0)).collect(),
        2 | 6 | 7 => thinned(&variables, 60).iter().map(|&a| entry(kind, a, 0)).collect(),
        _ => {
            let some = thinned(&clauses, 40);
            some.iter().flat_map(|&a| some.iter().map(move |&b| entry(kind, a, b))).collect()
        }
    };
    entries.into_iter().filter(|&e| likely(f, e) && whole(f, e).is_some()).collect()
}

/// The list if it is short, else members of it at even distance and the last eight.
fn thinned(list: &[u32], most: usize) -> Vec<u32> {
    if list.len() <= most {
        return list.to_vec();
    }
    let last = list.len() - 8;
    let mut some: Vec<u32> = list[..last].iter().copied().step_by(last / (most - 8) + 1).collect();
    some.extend(&list[last..]);
    some
}

/// A cheap look before the step is tried: clauses of kind 5 have two literals, those of kinds 3 and 4 share something.
fn likely(f: &Formula, e: Entry) -> bool {
    let (a, b) = (e.a as usize, e.b as usize);
    match e.kind {
        1 => f.clauses[a].len() == 1,
        3 => f.clauses[a].len() <= f.clauses[b].len(),
        4 => f.clauses[a].iter().any(|&l| f.clauses[b].contains(&opposite(l))),
        5 => f.clauses[a].len() == 2 && f.clauses[b].len() == 2,
        _ => true,
    }
}

/// An entry with something in it that must be zero, or of kind 0.
pub fn bad(rng: &mut Rng, good: Entry) -> u32 {
    match rng.below(5) {
        0 => good.bits() & 0x1fff_ffff,
        1 => good.bits() | 1 << rng.below(7),
        2 => good.bits() | (1 + rng.below(127) as u32),
        3 if !uses_b(good.kind) => good.bits() | 1 << rng.from(7, 17),
        3 => good.bits() | 64,
        _ => rng.next() as u32,
    }
}
