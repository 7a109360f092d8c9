//! Reading a text: the formula, or the first fault from the left with the byte offset of its token.

use super::formula::{negated, plain, Bound, Building, Formula, Lit, Places, Quantifier, Var};
use super::limits::{self, answer};
use super::numeral::{numeral, signed_numeral, Size};
use super::tidy::tidy;
use std::collections::HashSet;

#[derive(Clone, Copy, PartialEq, Eq, Debug)]
pub struct Fault {
    pub number: u8,
    pub offset: usize,
}

/// The text's length is looked at elsewhere: here any text is read.
pub fn read(text: &[u8]) -> Result<Formula, Fault> {
    let mut reader = Reader { text, at: 0 };
    reader.header_word(true, b"p")?;
    reader.header_word(false, b"cnf")?;
    let most = reader.header_number(limits::VARIABLES)? as u64;
    let count = reader.header_number(limits::CLAUSES)?;

    let mut prefix: Vec<Bound> = Vec::new();
    let mut bound: HashSet<Var> = HashSet::new();
    // A token that is not `e` or `a` where a quantifier line could start belongs to the clauses; it waits in `first`.
    let mut first = None;
    while let Some(token) = reader.token(false) {
        match token.bytes {
            b"e" => reader.quantifier_line(Quantifier::Exists, most, &mut prefix, &mut bound)?,
            b"a" => reader.quantifier_line(Quantifier::Forall, most, &mut prefix, &mut bound)?,
            _ => {
                first = Some(token);
                break;
            }
        }
    }

    let places = Places::new(&prefix);
    let mut clauses = Building::default();
    let mut read = 0;
    let mut current: Vec<Lit> = Vec::new();
    loop {
        let token = match first.take().or_else(|| reader.token(false)) {
            Some(token) => token,
            None if read == count => break,
            None => return Err(reader.short()),
        };
        if read == count {
            return Err(token.fault(answer::COUNT));
        }
        let (minus, size) = signed_numeral(token.bytes).ok_or(token.fault(answer::SYNTAX))?;
        if size == Size::of(0) {
            let tidied = tidy(&current, &places);
            current.clear();
            clauses.push_tidied(tidied);
            if clauses.literals() > limits::LITERALS {
                return Err(token.fault(answer::TOO_BIG));
            }
            read += 1;
        } else {
            let v = size.at_most(most).ok_or(token.fault(answer::RANGE))? as Var;
            if !bound.contains(&v) {
                return Err(token.fault(answer::UNBOUND));
            }
            current.push(if minus { negated(v) } else { plain(v) });
        }
    }
    Ok(Formula { prefix, clauses: clauses.done() })
}

struct Token<'t> {
    bytes: &'t [u8],
    offset: usize,
}

impl Token<'_> {
    fn fault(&self, number: u8) -> Fault {
        Fault { number, offset: self.offset }
    }
}

struct Reader<'t> {
    text: &'t [u8],
    at: usize,
}

fn is_blank(byte: u8) -> bool {
    matches!(byte, b' ' | b'\t' | b'\r' | b'\n')
}

impl<'t> Reader<'t> {
    fn short(&self) -> Fault {
        Fault { number: answer::SHORT, offset: self.text.len() }
    }

    /// The next token. With `comments` (before `p`), a token that starts with `c` runs to the next LF or the end and is no
    /// token of the formula.
    fn token(&mut self, comments: bool) -> Option<Token<'t>> {
        loop {
            while self.at < self.text.len() && is_blank(self.text[self.at]) {
                self.at += 1;
            }
            if self.at == self.text.len() {
                return None;
            }
            if comments && self.text[self.at] == b'c' {
                while self.at < self.text.len() && self.text[self.at] != b'\n' {
                    self.at += 1;
                }
                continue;
            }
            let offset = self.at;
            while self.at < self.text.len() && !is_blank(self.text[self.at]) {
                self.at += 1;
            }
            return Some(Token { bytes: &self.text[offset..self.at], offset });
        }
    }

    fn header_word(&mut self, comments: bool, word: &[u8]) -> Result<(), Fault> {
        let token = self.token(comments).ok_or(self.short())?;
        if token.bytes != word {
            return Err(token.fault(answer::SYNTAX));
        }
        Ok(())
    }

    fn header_number(&mut self, limit: usize) -> Result<usize, Fault> {
        let token = self.token(false).ok_or(self.short())?;
        let size = numeral(token.bytes).ok_or(token.fault(answer::SYNTAX))?;
        let number = size.at_most(limit as u64).ok_or(token.fault(answer::TOO_BIG))?;
        Ok(number as usize)
    }

    /// What follows `e` or `a`: one or more variables and `0`.
    fn quantifier_line(
        &mut self,
        quantifier: Quantifier,
        most: u64,
        prefix: &mut Vec<Bound>,
        bound: &mut HashSet<Var>,
    ) -> Result<(), Fault> {
        let mut empty = true;
        loop {
            let token = self.token(false).ok_or(self.short())?;
            let size = numeral(token.bytes).ok_or(token.fault(answer::SYNTAX))?;
            if size == Size::of(0) {
                return if empty { Err(token.fault(answer::RANGE)) } else { Ok(()) };
            }
            let var = size.at_most(most).ok_or(token.fault(answer::RANGE))? as Var;
            if !bound.insert(var) {
                return Err(token.fault(answer::TWICE));
            }
            prefix.push(Bound { var, quantifier });
            empty = false;
        }
    }
}
