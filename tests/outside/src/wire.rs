//! The probe's protocol: calls and results to bytes and back. All numbers are little endian.

use crate::model::face::{Call, Operation, Record, Reply, OPERATIONS};
use crate::model::table::Counts;
use std::io::{self, Read};

pub const TABLE_MOST: usize = 12_000;
pub const BYTES_MOST: usize = 70_000;

pub fn encode_call(call: &Call) -> Vec<u8> {
    let mut out = vec![call.operation as u8, call.record.side];
    let counts = call.record.counts;
    for number in [counts.variables, counts.clauses, counts.literals, call.a, call.b] {
        out.extend(number.to_le_bytes());
    }
    for table in &call.tables {
        encode_table(table, &mut out);
    }
    out.extend((call.bytes.len() as u32).to_le_bytes());
    out.extend(&call.bytes);
    out
}

pub fn encode_reply(reply: &Reply) -> Vec<u8> {
    let mut out = vec![reply.answer, reply.record.side];
    let counts = reply.record.counts;
    for number in [counts.variables, counts.clauses, counts.literals, reply.n] {
        out.extend(number.to_le_bytes());
    }
    for table in &reply.tables {
        encode_table(table, &mut out);
    }
    out.extend((reply.bytes.len() as u32).to_le_bytes());
    out.extend(&reply.bytes);
    encode_table(&reply.part, &mut out);
    out
}

fn encode_table(table: &[u16], out: &mut Vec<u8>) {
    let used = table.iter().rposition(|&n| n != 0).map_or(0, |last| last + 1);
    out.extend((table.len() as u32).to_le_bytes());
    out.extend((used as u32).to_le_bytes());
    for n in &table[..used] {
        out.extend(n.to_le_bytes());
    }
}

/// One call; nothing at the end of the stream before a call begins. What is no call is an error.
pub fn read_call(from: &mut impl Read) -> io::Result<Option<Call>> {
    let Some(number) = read_first(from)? else { return Ok(None) };
    let no_call = || io::Error::new(io::ErrorKind::InvalidData, "no call");
    let operation: Operation = *OPERATIONS.iter().find(|&&o| o as u8 == number).ok_or_else(no_call)?;
    let record = read_record(from)?;
    if record.side > 1 {
        return Err(no_call());
    }
    let (a, b) = (read_u64(from)?, read_u64(from)?);
    let tables = [read_table(from)?, read_table(from)?];
    Ok(Some(Call { operation, record, a, b, tables, bytes: read_bytes(from)? }))
}

/// One result; nothing at the end of the stream before a result begins. An end inside a result, or a length that no result
/// can have, is an error.
pub fn read_reply(from: &mut impl Read) -> io::Result<Option<Reply>> {
    let Some(answer) = read_first(from)? else { return Ok(None) };
    let record = read_record(from)?;
    let n = read_u64(from)?;
    let tables = [read_table(from)?, read_table(from)?];
    let bytes = read_bytes(from)?;
    let part = read_table(from)?;
    Ok(Some(Reply { answer, record, n, tables, bytes, part }))
}

fn read_first(from: &mut impl Read) -> io::Result<Option<u8>> {
    let mut first = [0u8];
    Ok(if from.read(&mut first)? == 0 { None } else { Some(first[0]) })
}

fn read_record(from: &mut impl Read) -> io::Result<Record> {
    let mut side = [0u8];
    from.read_exact(&mut side)?;
    let counts = Counts { variables: read_u64(from)?, clauses: read_u64(from)?, literals: read_u64(from)? };
    Ok(Record { side: side[0], counts })
}

fn read_bytes(from: &mut impl Read) -> io::Result<Vec<u8>> {
    let mut bytes = vec![0u8; read_length(from, BYTES_MOST)?];
    from.read_exact(&mut bytes)?;
    Ok(bytes)
}

fn read_u64(from: &mut impl Read) -> io::Result<u64> {
    let mut bytes = [0u8; 8];
    from.read_exact(&mut bytes)?;
    Ok(u64::from_le_bytes(bytes))
}

fn read_length(from: &mut impl Read, most: usize) -> io::Result<usize> {
    let mut bytes = [0u8; 4];
    from.read_exact(&mut bytes)?;
    let length = u32::from_le_bytes(bytes) as usize;
    if length > most {
        return Err(io::Error::new(io::ErrorKind::InvalidData, format!("a length of {length} in a result")));
    }
    Ok(length)
}

/// A table; its numbers reach to the last that is not zero, in calls (so `encode_call` sends them) and in results.
fn read_table(from: &mut impl Read) -> io::Result<Vec<u16>> {
    let length = read_length(from, TABLE_MOST)?;
    let used = read_length(from, length)?;
    let mut bytes = vec![0u8; 2 * used];
    from.read_exact(&mut bytes)?;
    let mut table: Vec<u16> = bytes.chunks(2).map(|two| u16::from_le_bytes([two[0], two[1]])).collect();
    if table.last() == Some(&0) {
        return Err(io::Error::new(io::ErrorKind::InvalidData, "a zero at the end of a table's numbers"));
    }
    table.resize(length, 0);
    Ok(table)
}
