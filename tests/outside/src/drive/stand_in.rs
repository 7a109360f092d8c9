//! `outside stand-in`: the model itself behind the probe's protocol, so that the driver can be tried with nothing else. With
//! `--spoil K` every K-th result is made wrong in one field: the driver must count each of them as a failure.

use crate::model::face::{answer_to, Reply};
use crate::rng::Rng;
use crate::wire::{encode_reply, read_call};
use std::io::{BufReader, BufWriter, Write};

pub fn stand_in(seed: u64, spoil_every: u64) -> i32 {
    let mut input = BufReader::new(std::io::stdin());
    let mut output = BufWriter::new(std::io::stdout());
    let mut rng = Rng::new(seed);
    let mut count = 0u64;
    while let Ok(Some(call)) = read_call(&mut input) {
        let mut reply = answer_to(&call);
        count += 1;
        if spoil_every > 0 && count % spoil_every == 0 {
            spoil(&mut rng, &mut reply);
        }
        if output.write_all(&encode_reply(&reply)).and_then(|()| output.flush()).is_err() {
            return 1;
        }
    }
    0
}

fn spoil(rng: &mut Rng, reply: &mut Reply) {
    let side = rng.below(2);
    match rng.below(9) {
        0 => reply.answer ^= 1,
        1 => reply.record.side ^= 1,
        2 => reply.record.counts.variables ^= 1 << 63,
        3 => reply.record.counts.clauses ^= 1,
        4 => reply.record.counts.literals ^= 1 << 32,
        5 => reply.n ^= 1 << rng.below(64),
        6 if !reply.tables[side].is_empty() => *reply.tables[side].last_mut().expect("not empty") ^= 1,
        7 if !reply.bytes.is_empty() => *reply.bytes.last_mut().expect("not empty") ^= 1,
        _ => reply.part.push(1),
    }
}
