//! The operations as a caller sees them: one call with its two lent tables, its record and its bytes; one result with the
//! answer, the record given back and everything lent as it was left. What each refusal leaves is decided here.

use super::formula::{Formula, Var};
use super::limits::{self, answer, LITERALS_AT, TABLE};
use super::reason::{reason, Reason};
use super::run::{replay, run};
use super::steps::step;
use super::table::{counts, decode, encode, Counts};
use super::{reading, writing};

#[derive(Clone, Copy, PartialEq, Eq, Debug, Hash, PartialOrd, Ord)]
pub enum Operation {
    Read = 1,
    Write = 2,
    Literals = 3,
    Step = 4,
    Run = 5,
    Replay = 6,
    Reason = 7,
}

pub const OPERATIONS: [Operation; 7] = [
    Operation::Read,
    Operation::Write,
    Operation::Literals,
    Operation::Step,
    Operation::Run,
    Operation::Replay,
    Operation::Reason,
];

/// A reason's three values, eight bytes each: every result of `Reason` has so many bytes.
const VALUES: usize = 24;

/// The counts, and which of the two lent tables holds the formula: 0 the first, 1 the second.
#[derive(Clone, Copy, PartialEq, Eq, Debug, Default)]
pub struct Record {
    pub side: u8,
    pub counts: Counts,
}

#[derive(Clone, Debug)]
pub struct Call {
    pub operation: Operation,
    pub record: Record,
    /// Step: the entry; run: E; reason: the variable.
    pub a: u64,
    /// Run: the limit; reason: E.
    pub b: u64,
    pub tables: [Vec<u16>; 2],
    /// Read: the text; write: the output buffer; run and replay: the log.
    pub bytes: Vec<u8>,
}

#[derive(Clone, PartialEq, Eq, Debug)]
pub struct Reply {
    pub answer: u8,
    pub record: Record,
    pub n: u64,
    pub tables: [Vec<u16>; 2],
    pub bytes: Vec<u8>,
    pub part: Vec<u16>,
}

/// The answers the documents allow an operation.
pub fn allowed(operation: Operation) -> &'static [u8] {
    match operation {
        Operation::Read => &[0, 1, 3, 4, 5, 6, 7, 8, 9],
        Operation::Write => &[0, 1, 2, 11],
        Operation::Literals => &[0, 1, 2],
        Operation::Step => &[0, 1, 2, 10, 11, 12],
        Operation::Run => &[1, 2, 13, 20, 21, 22, 23, 24],
        Operation::Replay => &[0, 1, 2, 10, 11, 12],
        Operation::Reason => &[0, 1, 2, 10, 13, 20, 21],
    }
}

pub fn answer_to(call: &Call) -> Reply {
    // As lent: what a refusal that writes nothing gives back.
    let mut reply = Reply {
        answer: answer::DONE,
        record: call.record,
        n: 0,
        tables: call.tables.clone(),
        bytes: match call.operation {
            Operation::Write | Operation::Run => call.bytes.clone(),
            Operation::Reason => vec![0; VALUES],
            _ => Vec::new(),
        },
        part: Vec::new(),
    };
    if call.operation == Operation::Read {
        answer_read(call, &mut reply);
        return reply;
    }
    if call.tables.iter().any(|t| t.len() != TABLE) {
        reply.answer = answer::LENGTH;
        return reply;
    }
    let Some(formula) = decode(&call.tables[call.record.side as usize], &call.record.counts) else {
        reply.answer = answer::MALFORMED;
        return reply;
    };
    match call.operation {
        Operation::Read => unreachable!("answered above"),
        Operation::Write => answer_write(&formula, &mut reply),
        Operation::Literals => {
            let used = call.record.counts.literals as usize;
            reply.part = call.tables[call.record.side as usize][LITERALS_AT..LITERALS_AT + used].to_vec();
            reply.n = used as u64;
        }
        Operation::Step => match step(&formula, call.a as u32) {
            Ok(result) => leave(&mut reply, &result, 1),
            Err(number) => {
                reply.answer = number;
                leave(&mut reply, &formula, 0);
            }
        },
        Operation::Run => {
            if call.a > limits::ALLOWANCE {
                reply.answer = answer::ALLOWANCE;
                return reply;
            }
            let ran = run(&formula, call.a, call.b, call.bytes.len());
            reply.answer = ran.outcome;
            reply.n = ran.steps;
            reply.bytes[..ran.log.len()].copy_from_slice(&ran.log);
            leave(&mut reply, &ran.formula, ran.steps);
        }
        Operation::Replay => {
            let replayed = replay(&formula, &call.bytes);
            reply.answer = replayed.answer;
            reply.n = replayed.applied;
            leave(&mut reply, &replayed.formula, replayed.applied);
        }
        Operation::Reason => answer_reason(call, &formula, &mut reply),
    }
    reply
}

/// Refusals: ALLOWANCE, then NOT PERMITTED for a variable not in the prefix. The formula is left as it is.
fn answer_reason(call: &Call, formula: &Formula, reply: &mut Reply) {
    if call.b > limits::ALLOWANCE {
        reply.answer = answer::ALLOWANCE;
        return;
    }
    leave(reply, formula, 0);
    let variable = Var::try_from(call.a).ok();
    match variable.and_then(|v| reason(formula, v, call.b)) {
        None => reply.answer = answer::NOT_PERMITTED,
        Some(given) => {
            reply.answer = match given {
                Reason::True => answer::TRUE,
                Reason::False => answer::FALSE,
                _ => answer::DONE,
            };
            reply.n = given.kind();
            reply.bytes = given.values().iter().flat_map(|value| value.to_le_bytes()).collect();
        }
    }
}

/// Leaves a formula after some steps: each step's result stands in the other table, and the spare table ends zero.
fn leave(reply: &mut Reply, formula: &Formula, steps: u64) {
    let side = if steps % 2 == 0 { reply.record.side } else { 1 - reply.record.side };
    reply.record = Record { side, counts: counts(formula) };
    reply.tables[side as usize] = encode(formula);
    reply.tables[1 - side as usize] = vec![0; TABLE];
}

/// Reading fills the first table, and its record names the first, refused or not.
fn answer_read(call: &Call, reply: &mut Reply) {
    reply.record = Record::default();
    if call.tables.iter().any(|t| t.len() != TABLE) || call.bytes.len() > limits::TEXT {
        reply.answer = answer::LENGTH;
        return;
    }
    match reading::read(&call.bytes) {
        Ok(formula) => leave(reply, &formula, 0),
        Err(fault) => {
            reply.answer = fault.number;
            reply.n = fault.offset as u64;
            reply.tables = [vec![0; TABLE], vec![0; TABLE]];
        }
    }
}

/// The output buffer is changed only where the text is written, and not at all if it is short.
fn answer_write(formula: &Formula, reply: &mut Reply) {
    let text = writing::write(formula);
    if text.len() > reply.bytes.len() {
        reply.answer = answer::NO_ROOM;
        return;
    }
    reply.bytes[..text.len()].copy_from_slice(&text);
    reply.n = text.len() as u64;
}

/// What the program prints for a text: it runs with E = 0, limit and log of 8,192 entries.
pub fn program(text: &[u8]) -> Vec<u8> {
    if text.len() > limits::TEXT {
        return format!("r {} 0\n", answer::LENGTH).into_bytes();
    }
    match reading::read(text) {
        Err(fault) => format!("r {} {}\n", fault.number, fault.offset).into_bytes(),
        Ok(formula) => {
            let ran = run(&formula, 0, 8192, 8192 * 4);
            let mut printed = format!("c {} {}\n", answer::word(ran.outcome), ran.steps).into_bytes();
            printed.extend(writing::write(&ran.formula));
            printed
        }
    }
}
