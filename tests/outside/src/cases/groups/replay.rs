//! Calls of replay.

use super::shared::{allowance, formula, step_entry};
use super::step::BOUNDS;
use crate::cases::full::full;
use crate::cases::lent::{lend, random_bytes};
use crate::cases::long_run::long_run;
use crate::cases::{bounds, entries};
use crate::model::entry::entry;
use crate::model::face::{Call, Operation};
use crate::model::formula::{exists, Formula};
use crate::model::run::run;
use crate::model::steps::step;
use crate::rng::Rng;

fn replay_call(rng: &mut Rng, f: &Formula, log: Vec<u8>) -> Call {
    let mut call = lend(rng, Operation::Replay, f);
    call.bytes = log;
    call
}

pub fn replay_run(rng: &mut Rng, _: usize) -> Call {
    let f = formula(rng);
    let log = run(&f, allowance(rng), 1000, 4000).log;
    replay_call(rng, &f, log)
}

/// Permitted entries one after the other, in no order of the run's.
fn random_log(rng: &mut Rng, f: &Formula) -> Vec<u8> {
    let mut now = f.clone();
    let mut log = Vec::new();
    for _ in 0..rng.from(1, 8) {
        let kind = rng.from(1, 7) as u32;
        let e = if rng.once_in(10) { entries::near(rng, &now, kind) } else { step_entry(rng, &now) };
        log.extend(e.bytes());
        match step(&now, e.bits()) {
            Ok(result) => now = result,
            Err(_) => {
                // Something stands after the refused entry.
                log.extend(step_entry(rng, &now).bytes());
                break;
            }
        }
    }
    log
}

pub fn replay_random(rng: &mut Rng, _: usize) -> Call {
    let f = formula(rng);
    let log = random_log(rng, &f);
    replay_call(rng, &f, log)
}

/// A log of some hundred entries on a full table (the first has some thousand), now and then with an entry in it that is refused.
pub fn replay_long(rng: &mut Rng, number: usize) -> Call {
    let f = if number == 0 { long_run() } else { full(rng) };
    let mut log = if number == 0 { run(&f, 0, u64::MAX, 70_000).log } else { run(&f, 0, 300, 4000).log };
    if rng.once_in(3) && !log.is_empty() {
        let at = rng.below(log.len() / 4) * 4;
        let kind = rng.from(1, 7) as u32;
        let wrong = entries::near(rng, &f, kind).bytes();
        log.splice(at..at, wrong);
    }
    replay_call(rng, &f, log)
}

pub fn replay_damaged(rng: &mut Rng, _: usize) -> Call {
    let f = formula(rng);
    let mut log = if rng.coin() { run(&f, allowance(rng), 1000, 4000).log } else { random_log(rng, &f) };
    match rng.below(6) {
        0 => {
            let length = rng.from(1, 3);
            log.extend(random_bytes(rng, length));
        }
        1 => {
            let length = rng.below(log.len() + 1);
            log.truncate(length);
        }
        2 => {
            let length = 4 * rng.from(1, 3);
            log.extend(random_bytes(rng, length));
        }
        3 => {
            let good = step_entry(rng, &f);
            log.extend(entries::bad(rng, good).to_be_bytes());
        }
        _ if log.is_empty() => {}
        4 => {
            let i = rng.below(log.len());
            log[i] ^= 1 << rng.below(8);
        }
        _ => {
            let i = rng.below(log.len() / 4) * 4;
            log.drain(i..i + 4);
        }
    }
    replay_call(rng, &f, log)
}

/// An absent variable is dropped, then the step at the limit, then one more entry.
pub fn replay_bound(rng: &mut Rng, number: usize) -> Call {
    let (kind, measure, total) = BOUNDS[number];
    let (mut f, e) = bounds::at_bound(rng, kind, measure, total);
    let mut log = Vec::new();
    let unused = (1..=1023).rev().find(|v| f.prefix.iter().all(|b| b.var != *v));
    if let (Some(v), true) = (unused, f.prefix.len() < 1023) {
        f.prefix.insert(0, exists(v));
        log.extend(entry(2, v, 0).bytes());
    }
    log.extend(e.bytes());
    log.extend(random_bytes(rng, 4));
    replay_call(rng, &f, log)
}
