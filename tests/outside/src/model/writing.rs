//! Writing a formula as a text.

use super::formula::{var, Formula};

pub fn write(f: &Formula) -> Vec<u8> {
    let most = f.prefix.iter().map(|b| b.var).max().unwrap_or(0);
    let mut text = format!("p cnf {} {}\n", most, f.clauses.len());
    let mut rest = &f.prefix[..];
    while let Some(first) = rest.first() {
        let stretch = rest.iter().take_while(|b| b.quantifier == first.quantifier).count();
        text.push(if first.is_existential() { 'e' } else { 'a' });
        for b in &rest[..stretch] {
            text.push_str(&format!(" {}", b.var));
        }
        text.push_str(" 0\n");
        rest = &rest[stretch..];
    }
    for clause in &f.clauses {
        for &l in clause {
            text.push_str(&format!("{}{} ", if l % 2 == 1 { "-" } else { "" }, var(l)));
        }
        text.push_str("0\n");
    }
    text.into_bytes()
}
