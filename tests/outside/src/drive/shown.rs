//! Calls and results in a form that can be read, and where two results differ.

use crate::model::entry;
use crate::model::face::{Call, Operation, Record, Reply};
use crate::model::limits::{answer, TABLE};
use crate::model::table::decode;
use crate::model::writing::write;

/// Texts are shown up to this many bytes.
const SHOWN: usize = 1500;

pub fn bytes(bytes: &[u8]) -> String {
    let shown: String = bytes.iter().take(SHOWN).flat_map(|&b| std::ascii::escape_default(b)).map(char::from).collect();
    if bytes.len() > SHOWN {
        format!("{shown}... ({} bytes)", bytes.len())
    } else {
        format!("{shown} ({} bytes)", bytes.len())
    }
}

/// A table by its length, its formula if it holds one, and its numbers that are not zero.
fn table(table: &[u16], record: &Record, side: usize) -> String {
    let used: Vec<String> = table.iter().enumerate().filter(|(_, &n)| n != 0).take(60).map(|(i, n)| format!("{i}:{n}")).collect();
    let count = table.iter().filter(|&&n| n != 0).count();
    let mut out = format!("length {}, {count} numbers not zero: {}", table.len(), used.join(" "));
    if count > 60 {
        out.push_str(" ...");
    }
    if side == record.side as usize && table.len() == TABLE {
        if let Some(f) = decode(table, &record.counts) {
            out.push_str(&format!("\n      which is {}", bytes(&write(&f))));
        }
    }
    out
}

fn record(r: &Record) -> String {
    format!("side {}, {} variables, {} clauses, {} literals", r.side, r.counts.variables, r.counts.clauses, r.counts.literals)
}

pub fn call(call: &Call) -> String {
    let mut out = format!("  {:?}, {}", call.operation, record(&call.record));
    match call.operation {
        Operation::Step => out.push_str(&format!(", entry {:08x} {:?}", call.a, entry::decode(call.a as u32))),
        Operation::Reason => out.push_str(&format!(", variable {}, E {}", call.a, call.b)),
        Operation::Run => out.push_str(&format!(", E {}, limit {}, log of {} bytes", call.a, call.b, call.bytes.len())),
        _ => {}
    }
    for (i, t) in call.tables.iter().enumerate() {
        out.push_str(&format!("\n    table {i}: {}", table(t, &call.record, i)));
    }
    if call.operation == Operation::Replay {
        let entries: Vec<String> = call.bytes.chunks(4).map(hex).collect();
        out.push_str(&format!("\n    log: {}", entries.join(" ")));
    } else {
        out.push_str(&format!("\n    bytes: {}", bytes(&call.bytes)));
    }
    out
}

pub fn reply(reply: &Reply) -> String {
    let mut out = format!("  answer {} {}, {}, n {}", reply.answer, answer::word(reply.answer), record(&reply.record), reply.n);
    for (i, t) in reply.tables.iter().enumerate() {
        out.push_str(&format!("\n    table {i}: {}", table(t, &reply.record, i)));
    }
    if !reply.bytes.is_empty() {
        out.push_str(&format!("\n    bytes: {}", bytes(&reply.bytes)));
    }
    if !reply.part.is_empty() {
        out.push_str(&format!("\n    part: {:?}", reply.part));
    }
    out
}

/// The fields in which two results differ.
pub fn differences(got: &Reply, wanted: &Reply) -> Vec<String> {
    let mut list = Vec::new();
    let mut number = |name: &str, got: u64, wanted: u64| {
        if got != wanted {
            list.push(format!("{name} is {got}, the model's is {wanted}"));
        }
    };
    number("answer", got.answer as u64, wanted.answer as u64);
    number("side", got.record.side as u64, wanted.record.side as u64);
    number("variables", got.record.counts.variables, wanted.record.counts.variables);
    number("clauses", got.record.counts.clauses, wanted.record.counts.clauses);
    number("literals", got.record.counts.literals, wanted.record.counts.literals);
    number("n", got.n, wanted.n);
    list.extend(sequence("the first table", &got.tables[0], &wanted.tables[0]));
    list.extend(sequence("the second table", &got.tables[1], &wanted.tables[1]));
    list.extend(sequence("bytes", &got.bytes, &wanted.bytes));
    list.extend(sequence("part", &got.part, &wanted.part));
    list
}

fn sequence<T: PartialEq + std::fmt::Display>(name: &str, got: &[T], wanted: &[T]) -> Option<String> {
    if got.len() != wanted.len() {
        return Some(format!("{name} has length {}, the model's {}", got.len(), wanted.len()));
    }
    let i = got.iter().zip(wanted).position(|(g, w)| g != w)?;
    Some(format!("{name} at {i} is {}, the model's is {}", got[i], wanted[i]))
}

pub fn hex(bytes: &[u8]) -> String {
    bytes.iter().map(|b| format!("{b:02x}")).collect()
}
