//! Calls of read.

use crate::cases::formulas::{Size, MIDDLE, SMALL, WIDE};
use crate::cases::lent::spare;
use crate::cases::{text_edges, texts};
use crate::model::face::{Call, Operation, Record};
use crate::model::limits::TABLE;
use crate::rng::Rng;

fn read_call(rng: &mut Rng, text: Vec<u8>) -> Call {
    let zero = vec![0; TABLE];
    let tables = [spare(rng, &zero), spare(rng, &zero)];
    // Reading takes no record: what stands there must not matter.
    let record = if rng.once_in(4) { Record { side: 1, ..Record::default() } } else { Record::default() };
    Call { operation: Operation::Read, record, a: 0, b: 0, tables, bytes: text }
}

pub fn read_edge(rng: &mut Rng, number: usize) -> Call {
    read_call(rng, text_edges::SHORT_TEXTS[number].as_bytes().to_vec())
}

pub fn read_long(rng: &mut Rng, number: usize) -> Call {
    let text = text_edges::long_texts().swap_remove(number).1;
    read_call(rng, text)
}

fn text_size(rng: &mut Rng) -> Size {
    *rng.pick(&[SMALL, SMALL, MIDDLE, MIDDLE, WIDE])
}

pub fn read_clean(rng: &mut Rng, _: usize) -> Call {
    let size = text_size(rng);
    let tokens = texts::tokens(rng, size);
    let text = texts::spell(rng, &tokens);
    read_call(rng, text)
}

pub fn read_damaged(rng: &mut Rng, _: usize) -> Call {
    let size = *rng.pick(&[SMALL, SMALL, SMALL, MIDDLE]);
    let text = texts::damaged(rng, size);
    read_call(rng, text)
}

pub fn read_babble(rng: &mut Rng, _: usize) -> Call {
    let text = texts::babble(rng);
    read_call(rng, text)
}
