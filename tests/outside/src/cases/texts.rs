//! Texts: formulas spelled with blanks and comments of all sorts, and the same damaged.

use super::formulas::{self, Size};
use crate::model::formula::{var, Bound, Lit};
use crate::rng::Rng;

fn token(text: &str) -> Vec<u8> {
    text.as_bytes().to_vec()
}

fn signed(l: Lit) -> Vec<u8> {
    token(&format!("{}{}", if l % 2 == 1 { "-" } else { "" }, var(l)))
}

/// The tokens of a text that reads, with clauses that may need tidying: repeats, both phases, universals at the end,
/// clauses twice.
pub fn tokens(rng: &mut Rng, size: Size) -> Vec<Vec<u8>> {
    let count = rng.below(size.variables + 1);
    let prefix = formulas::prefix(rng, count, size.greatest);
    let mut clauses: Vec<Vec<Lit>> = Vec::new();
    for _ in 0..rng.below(size.clauses + 1) {
        if !clauses.is_empty() && rng.once_in(6) {
            let mut again = rng.pick(&clauses).clone();
            rng.shuffle(&mut again);
            clauses.push(again);
            continue;
        }
        let length = *rng.pick(&[0, 1, 1, 2, 2, 3, 3, 3, 4, 6]);
        clauses.push(if prefix.is_empty() { Vec::new() } else { formulas::literals(rng, &prefix, length) });
    }
    of_lists(rng, &prefix, &clauses)
}

pub fn of_lists(rng: &mut Rng, prefix: &[Bound], clauses: &[Vec<Lit>]) -> Vec<Vec<u8>> {
    let most = prefix.iter().map(|b| b.var).max().unwrap_or(0) as usize;
    let most = if rng.once_in(3) { rng.from(most, 1023) } else { most };
    let mut list = vec![token("p"), token("cnf"), token(&most.to_string()), token(&clauses.len().to_string())];
    for (i, b) in prefix.iter().enumerate() {
        // Equal quantifiers may share a line or not.
        let same = i > 0 && prefix[i - 1].quantifier == b.quantifier;
        if i == 0 || !same || rng.once_in(4) {
            if i > 0 {
                list.push(token("0"));
            }
            list.push(token(if b.is_existential() { "e" } else { "a" }));
        }
        list.push(token(&b.var.to_string()));
    }
    if !prefix.is_empty() {
        list.push(token("0"));
    }
    for clause in clauses {
        list.extend(clause.iter().map(|&l| signed(l)));
        list.push(token("0"));
    }
    list
}

const BLANKS: [&[u8]; 8] = [b" ", b" ", b" ", b"\n", b"\r\n", b"\t", b"  ", b" \t\r\n "];

/// Joins tokens with blanks; comments may stand before the first.
pub fn spell(rng: &mut Rng, tokens: &[Vec<u8>]) -> Vec<u8> {
    let mut text = Vec::new();
    if rng.once_in(3) {
        for _ in 0..rng.from(1, 3) {
            text.extend(comment(rng));
        }
    }
    if rng.once_in(6) {
        text.extend(*rng.pick(&BLANKS));
    }
    let wild = rng.coin();
    for (i, t) in tokens.iter().enumerate() {
        if i > 0 {
            if wild {
                text.extend(*rng.pick(&BLANKS));
            } else {
                text.push(if tokens[i - 1] == b"0" || i == 4 { b'\n' } else { b' ' });
            }
        }
        text.extend(t);
    }
    match rng.below(4) {
        0 => {}
        1 => text.extend(*rng.pick(&BLANKS)),
        _ => text.push(b'\n'),
    }
    text
}

/// A comment with its LF; now and then with blanks before it, or with bytes of any sort in it.
fn comment(rng: &mut Rng) -> Vec<u8> {
    let mut text = Vec::new();
    if rng.once_in(4) {
        text.extend(b" \t");
    }
    text.push(b'c');
    match rng.below(5) {
        0 => {}
        1 => text.extend(b" p cnf 3 1"),
        2 => text.extend(b"nf \r 1 2 0"),
        3 => text.extend((0..rng.below(20)).map(|_| rng.next() as u8).filter(|&b| b != b'\n')),
        _ => text.extend(b" made for a test"),
    }
    text.push(b'\n');
    text
}

/// Tokens that stand out of place nearly everywhere, numerals of all sorts, and words.
pub const ODD: [&str; 48] = [
    "00",
    "01",
    "-00",
    "-01",
    "+1",
    "+0",
    "-0",
    "-",
    "--1",
    "1-",
    "1-1",
    "-1-",
    "-+1",
    "+",
    "1a",
    "a1",
    "e1",
    "0e",
    "0x1",
    "1.0",
    "1,",
    "0",
    "1",
    "2",
    "-1",
    "-2",
    "3",
    "1023",
    "-1023",
    "1024",
    "-1024",
    "2047",
    "2048",
    "65536",
    "4294967296",
    "18446744073709551616",
    "18446744073709551617",
    "-18446744073709551617",
    "99999999999999999999999999999999999999999",
    "e",
    "a",
    "c",
    "p",
    "cnf",
    "E",
    "ee",
    "\u{7f}",
    "\u{b}\u{c}",
];

fn odd(rng: &mut Rng) -> Vec<u8> {
    match rng.below(30) {
        0 => vec![0],
        1 => vec![0xff, b'1'],
        2 => (0..rng.from(1, 4)).map(|_| rng.from(33, 255) as u8).collect(),
        _ => token(*rng.pick::<&str>(&ODD)),
    }
}

/// Damages the tokens in one way.
fn damage_tokens(rng: &mut Rng, tokens: &mut Vec<Vec<u8>>) {
    if tokens.is_empty() {
        tokens.push(odd(rng));
        return;
    }
    // The head is short beside the rest: aim at it more often.
    let i = if rng.once_in(3) { rng.below(tokens.len().min(6)) } else { rng.below(tokens.len()) };
    match rng.below(9) {
        0 => {
            tokens.remove(i);
        }
        1 => tokens.insert(i, tokens[i].clone()),
        2 => {
            let j = rng.below(tokens.len());
            tokens.swap(i, j);
        }
        3 if i > 0 => tokens.swap(i, i - 1),
        4 => tokens[i] = odd(rng),
        5 => tokens.insert(i, odd(rng)),
        6 => tokens.push(odd(rng)),
        7 => tokens.truncate(i),
        _ => {
            // A numeral one more or one less, or with another sign.
            if let Ok(number) = String::from_utf8_lossy(&tokens[i]).parse::<i64>() {
                let other = match rng.below(4) {
                    0 => number + 1,
                    1 => number - 1,
                    2 => -number,
                    _ => number * 10,
                };
                tokens[i] = token(&other.to_string());
            } else {
                tokens[i] = odd(rng);
            }
        }
    }
}

/// Damages the bytes in one way.
fn damage_bytes(rng: &mut Rng, text: &mut Vec<u8>) {
    if text.is_empty() {
        return;
    }
    let i = rng.below(text.len());
    match rng.below(6) {
        0 => text[i] ^= 1 << rng.below(8),
        1 => text[i] = rng.next() as u8,
        2 => {
            text.remove(i);
        }
        3 => text.insert(i, *rng.pick(b" \n\t\r0123456789-+eacp")),
        4 => text.truncate(i),
        _ => {
            let inserted = comment(rng);
            text.splice(i..i, inserted);
        }
    }
}

/// A text damaged in one to three ways.
pub fn damaged(rng: &mut Rng, size: Size) -> Vec<u8> {
    let mut list = tokens(rng, size);
    let times = *rng.pick(&[1, 1, 1, 2, 3]);
    let in_bytes = if rng.once_in(3) { times } else { 0 };
    for _ in in_bytes..times {
        damage_tokens(rng, &mut list);
    }
    let mut text = spell(rng, &list);
    for _ in 0..in_bytes {
        damage_bytes(rng, &mut text);
    }
    text
}

/// Words and numerals in any order after a head that may be right.
pub fn babble(rng: &mut Rng) -> Vec<u8> {
    let mut list = Vec::new();
    if !rng.once_in(6) {
        let most = *rng.pick(&["0", "1", "2", "3", "1023"]);
        let count = *rng.pick(&["0", "1", "2", "3", "2047"]);
        list.extend(["p", "cnf", most, count].map(token));
    }
    let words = ["e", "a", "0", "0", "0", "1", "2", "3", "-1", "-2", "-3", "4"];
    for _ in 0..rng.below(14) {
        list.push(if rng.once_in(12) { odd(rng) } else { token(*rng.pick::<&str>(&words)) });
    }
    spell(rng, &list)
}
