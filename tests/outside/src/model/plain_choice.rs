//! The run's choice a second time, by trying every entry there could be. Slow and short, as the document says it.

use super::choice::Choice;
use super::entry::{entry, Entry};
use super::formula::Formula;
use super::steps::whole;

/// For small formulas.
pub fn plain_choice(f: &Formula, allowance: u64) -> Choice {
    if f.clauses.iter().any(|c| c.is_empty()) {
        return Choice::False;
    }
    if f.clauses.is_empty() {
        return Choice::True;
    }
    let n = f.clauses.len() as u32;
    let mut for_room = false;
    for kind in 1..=7 {
        let entries: Vec<Entry> = match kind {
            1 => (0..n).map(|a| entry(1, a, 0)).collect(),
            3..=5 => (0..n).flat_map(|a| (0..n).map(move |b| entry(kind, a, b))).collect(),
            _ => f.prefix.iter().map(|b| entry(kind, b.var, 0)).collect(),
        };
        let permitted = entries.into_iter().filter_map(|e| whole(f, e).map(|result| (e, result)));
        if kind <= 5 {
            if let Some((e, result)) = permitted.into_iter().next() {
                return Choice::Take(e, result);
            }
            continue;
        }
        let rise = if kind == 6 { -1 } else { allowance as i64 };
        let (fit, unfit): (Vec<_>, Vec<_>) =
            permitted.filter(|(_, r)| r.weight() as i64 - f.weight() as i64 <= rise).partition(|(_, r)| r.fits());
        // `min_by_key` takes the first of equals: the leftmost.
        if let Some((e, result)) = fit.into_iter().min_by_key(|(_, r)| r.weight()) {
            return Choice::Take(e, result);
        }
        for_room |= !unfit.is_empty();
    }
    Choice::Nothing { for_room }
}
