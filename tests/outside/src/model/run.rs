//! The run and the replay over formulas.

use super::choice::{choice, Choice};
use super::formula::Formula;
use super::limits::answer;
use super::steps::step;

pub struct Ran {
    /// 20 to 24.
    pub outcome: u8,
    pub formula: Formula,
    /// The entries of the steps taken, four bytes each.
    pub log: Vec<u8>,
    pub steps: u64,
}

/// Runs with allowance E; at most `limit` steps, and at most as many as whole entries find room in a log of `log_length` bytes.
pub fn run(f: &Formula, allowance: u64, limit: u64, log_length: usize) -> Ran {
    let most = limit.min(log_length as u64 / 4);
    let mut formula = f.clone();
    let mut log = Vec::new();
    let mut steps = 0;
    let outcome = loop {
        match choice(&formula, allowance) {
            Choice::False => break answer::FALSE,
            Choice::True => break answer::TRUE,
            Choice::Nothing { for_room: true } => break answer::OUT_OF_ROOM,
            Choice::Nothing { for_room: false } => break answer::FINISHED,
            Choice::Take(..) if steps == most => break answer::STOPPED,
            Choice::Take(e, result) => {
                log.extend(e.bytes());
                formula = result;
                steps += 1;
            }
        }
    };
    Ran { outcome, formula, log, steps }
}

pub struct Replayed {
    /// 0, or the refusal of the log or of its first refused entry.
    pub answer: u8,
    pub formula: Formula,
    pub applied: u64,
}

/// Applies the log's entries one after the other, and stops at the first refused one.
pub fn replay(f: &Formula, log: &[u8]) -> Replayed {
    let mut formula = f.clone();
    if log.len() % 4 != 0 {
        return Replayed { answer: answer::BAD_ENTRY, formula, applied: 0 };
    }
    let mut applied = 0;
    for bytes in log.chunks(4) {
        let bits = u32::from_be_bytes(bytes.try_into().expect("four bytes"));
        match step(&formula, bits) {
            Ok(result) => formula = result,
            Err(number) => return Replayed { answer: number, formula, applied },
        }
        applied += 1;
    }
    Replayed { answer: answer::DONE, formula, applied }
}
