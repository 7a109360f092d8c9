//! What the cases reached: how often each answer of each operation occurred, and the finer counts of steps, runs and reasons.
//! A hole counts as a failure: an answer that the documents allow and that never occurred was never compared.

use crate::model::entry;
use crate::model::face::{allowed, Call, Operation, Reply, OPERATIONS};
use crate::model::limits::answer;
use crate::model::table::decode;
use crate::tally::Tally;
use std::collections::BTreeMap;

#[derive(Default)]
pub struct Coverage {
    answers: BTreeMap<(Operation, u8), u64>,
    /// Kind and answer of single steps.
    steps: BTreeMap<(u32, u8), u64>,
    /// Kinds that runs took.
    taken: BTreeMap<u32, u64>,
    /// The reasons by their names in `REASONS`.
    reasons: BTreeMap<&'static str, u64>,
}

/// Every reason there can be, the entries by their kinds and the limits by the step that would pass them.
const REASONS: [&str; 17] = [
    "next entry of kind 1",
    "next entry of kind 2",
    "next entry of kind 3",
    "next entry of kind 4",
    "next entry of kind 5",
    "own entry of kind 6",
    "own entry of kind 7",
    "too far right",
    "too far right, the universal itself",
    "not lighter",
    "between",
    "too heavy",
    "over variables",
    "over clauses by resolving",
    "over clauses by expanding",
    "over literals by resolving",
    "over literals by expanding",
];

/// The name of the reason that a result of `Reason` with no refusal and no verdict gives.
fn reason_name(call: &Call, reply: &Reply) -> &'static str {
    let value = |i: usize| u64::from_le_bytes(reply.bytes[8 * i..8 * i + 8].try_into().expect("eight bytes"));
    let formula = decode(&call.tables[call.record.side as usize], &call.record.counts).expect("not refused");
    let existential = formula.places().is_existential(call.a as u32);
    let entry_kind = (value(0) >> 29) as usize;
    match (reply.n, existential) {
        (1, _) => REASONS[entry_kind - 1],
        (2, _) => REASONS[entry_kind - 1],
        (3, _) if value(1) == value(2) => "too far right, the universal itself",
        (3, _) => "too far right",
        (4, _) => "not lighter",
        (5, _) => "between",
        (6, _) => "too heavy",
        (7, _) => "over variables",
        (8, true) => "over clauses by resolving",
        (8, false) => "over clauses by expanding",
        (9, true) => "over literals by resolving",
        (9, false) => "over literals by expanding",
        _ => "(no reason of document 02)",
    }
}

impl Coverage {
    /// Counts a call with the model's result.
    pub fn count(&mut self, call: &Call, reply: &Reply) {
        *self.answers.entry((call.operation, reply.answer)).or_default() += 1;
        match call.operation {
            Operation::Step => {
                if let Some(e) = entry::decode(call.a as u32) {
                    *self.steps.entry((e.kind, reply.answer)).or_default() += 1;
                }
            }
            Operation::Run if reply.answer >= answer::TRUE => {
                for bytes in reply.bytes[..4 * reply.n as usize].chunks(4) {
                    *self.taken.entry(bytes[0] as u32 >> 5).or_default() += 1;
                }
            }
            Operation::Reason if reply.answer == answer::DONE => {
                *self.reasons.entry(reason_name(call, reply)).or_default() += 1;
            }
            _ => {}
        }
    }

    /// One line: the operations and answers counted.
    pub fn line(&self) -> String {
        let all: Vec<String> = self.answers.iter().map(|((o, a), n)| format!("{o:?} {a}: {n}")).collect();
        all.join(", ")
    }

    pub fn add(&mut self, other: Coverage) {
        for (key, n) in other.answers {
            *self.answers.entry(key).or_default() += n;
        }
        for (key, n) in other.steps {
            *self.steps.entry(key).or_default() += n;
        }
        for (key, n) in other.taken {
            *self.taken.entry(key).or_default() += n;
        }
        for (key, n) in other.reasons {
            *self.reasons.entry(key).or_default() += n;
        }
    }

    /// Prints the whole and counts each hole as a failure.
    pub fn finish(&self, tally: &mut Tally) {
        println!("covered:");
        for operation in OPERATIONS {
            let counts: Vec<String> = allowed(operation).iter().map(|&a| self.shown(operation, a)).collect();
            println!("  {operation:?}: {}", counts.join(", "));
        }
        let steps: Vec<String> = self.steps.iter().map(|((kind, a), n)| format!("{kind} {}: {n}", answer::word(*a))).collect();
        println!("  single steps by kind: {}", steps.join(", "));
        let taken: Vec<String> = self.taken.iter().map(|(kind, n)| format!("{kind}: {n}")).collect();
        println!("  steps of runs by kind: {}", taken.join(", "));
        let reasons: Vec<String> = self.reasons.iter().map(|(name, n)| format!("{name}: {n}")).collect();
        println!("  reasons: {}", reasons.join(", "));

        for operation in OPERATIONS {
            for &a in allowed(operation) {
                let occurred = self.answers.contains_key(&(operation, a));
                tally.check(occurred, || format!("{operation:?} never gave {a} {}", answer::word(a)));
            }
        }
        for kind in 1..=7 {
            let room: &[u8] = if kind >= 6 { &[answer::NO_ROOM] } else { &[] };
            for &a in [answer::DONE, answer::NOT_PERMITTED].iter().chain(room) {
                let occurred = self.steps.contains_key(&(kind, a));
                tally.check(occurred, || format!("no step of kind {kind} gave {a} {}", answer::word(a)));
            }
            tally.check(self.taken.contains_key(&kind), || format!("no run took a step of kind {kind}"));
        }
        for name in REASONS {
            tally.check(self.reasons.contains_key(name), || format!("no variable was left for: {name}"));
        }
    }

    fn shown(&self, operation: Operation, a: u8) -> String {
        format!("{} {}", answer::word(a), self.answers.get(&(operation, a)).unwrap_or(&0))
    }
}
