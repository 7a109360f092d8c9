//! The run's choice at one point: the verdict, or the step to take, or why none is left. Written with occurrence lists, so
//! that formulas of some hundred clauses take little time; the self test compares it with `plain_choice`.

use super::entry::{entry, Entry};
use super::formula::{negated, opposite, plain, var, Clause, Formula, Lit};
use super::limits;
use super::steps::{resolve, whole};
use std::collections::{HashMap, HashSet};

#[derive(Clone, PartialEq, Eq, Debug)]
pub enum Choice {
    False,
    True,
    /// The step to take and its result.
    Take(Entry, Formula),
    /// No candidate. Did a kind 6 or 7 step fail only for room?
    Nothing {
        for_room: bool,
    },
}

/// What stands at this point with allowance E.
pub fn choice(f: &Formula, allowance: u64) -> Choice {
    match verdict(f) {
        Some(true) => return Choice::True,
        Some(false) => return Choice::False,
        None => {}
    }
    let at = Occurrences::of(f);
    if let Some(e) = light(f, &at) {
        let result = whole(f, e).expect("a candidate is permitted");
        return Choice::Take(e, result);
    }
    let resolve = resolve_candidates(f, &at);
    let expand = expand_candidates(f, allowance);
    for candidates in [&resolve, &expand] {
        // `min_by_key` takes the first of equals: the leftmost.
        if let Some(best) = candidates.iter().filter(|c| c.fits).min_by_key(|c| c.weight) {
            let result = whole(f, best.entry).expect("a candidate is permitted");
            return Choice::Take(best.entry, result);
        }
    }
    Choice::Nothing { for_room: !resolve.is_empty() || !expand.is_empty() }
}

/// An empty clause, FALSE; no clause, TRUE; else nothing is decided.
pub fn verdict(f: &Formula) -> Option<bool> {
    if f.clauses.iter().any(|c| c.is_empty()) {
        Some(false)
    } else if f.clauses.is_empty() {
        Some(true)
    } else {
        None
    }
}

/// The step of kinds 1 to 5 that a run takes, if there is a candidate. No verdict stands.
pub fn next_light(f: &Formula) -> Option<Entry> {
    light(f, &Occurrences::of(f))
}

fn light(f: &Formula, at: &Occurrences) -> Option<Entry> {
    unit(f).or_else(|| pure(f, at)).or_else(|| subsume(f, at)).or_else(|| strengthen(f, at)).or_else(|| equality(f))
}

/// Which clauses hold a literal, ascending.
struct Occurrences {
    lists: HashMap<Lit, Vec<usize>>,
}

impl Occurrences {
    fn of(f: &Formula) -> Occurrences {
        let mut lists: HashMap<Lit, Vec<usize>> = HashMap::new();
        for (i, clause) in f.clauses.iter().enumerate() {
            for &l in clause {
                lists.entry(l).or_default().push(i);
            }
        }
        Occurrences { lists }
    }

    fn of_literal(&self, l: Lit) -> &[usize] {
        self.lists.get(&l).map_or(&[], |list| list)
    }
}

/// The lowest clause index with one literal.
fn unit(f: &Formula) -> Option<Entry> {
    let a = f.clauses.iter().position(|c| c.len() == 1)?;
    Some(entry(1, a as u32, 0))
}

/// The leftmost variable that is absent or stands in one phase only.
fn pure(f: &Formula, at: &Occurrences) -> Option<Entry> {
    let stands = |l: Lit| !at.of_literal(l).is_empty();
    let b = f.prefix.iter().find(|b| !(stands(plain(b.var)) && stands(negated(b.var))))?;
    Some(entry(2, b.var, 0))
}

fn is_part(part: &Clause, of: &Clause) -> bool {
    part.len() <= of.len() && part.iter().all(|l| of.binary_search(l).is_ok())
}

/// The lowest a, then b, with clause a a part of b. No clause is empty here.
fn subsume(f: &Formula, at: &Occurrences) -> Option<Entry> {
    for (a, part) in f.clauses.iter().enumerate() {
        let rarest = part.iter().min_by_key(|&&l| at.of_literal(l).len()).expect("not empty");
        let b = at.of_literal(*rarest).iter().find(|&&b| b != a && is_part(part, &f.clauses[b]));
        if let Some(&b) = b {
            return Some(entry(3, a as u32, b as u32));
        }
    }
    None
}

/// The lowest a, then b, with a literal of a turned around making a a part of b.
fn strengthen(f: &Formula, at: &Occurrences) -> Option<Entry> {
    let places = f.places();
    for (a, clause) in f.clauses.iter().enumerate() {
        let mut least: Option<usize> = None;
        for &l in clause.iter().filter(|&&l| places.is_existential(var(l))) {
            let mut turned: Clause = clause.iter().map(|&m| if m == l { opposite(l) } else { m }).collect();
            turned.sort_unstable();
            let found = at.of_literal(opposite(l)).iter().find(|&&b| is_part(&turned, &f.clauses[b]));
            if let Some(&b) = found {
                least = Some(least.map_or(b, |other| other.min(b)));
            }
        }
        if let Some(b) = least {
            return Some(entry(4, a as u32, b as u32));
        }
    }
    None
}

/// The lowest a, then b > a, two-literal clauses with each the other's literals negated.
fn equality(f: &Formula) -> Option<Entry> {
    let twos = || f.clauses.iter().enumerate().filter(|(_, c)| c.len() == 2);
    let by_clause: HashMap<&Clause, usize> = twos().map(|(i, c)| (c, i)).collect();
    for (a, clause) in twos() {
        let turned: Clause = clause.iter().map(|&l| opposite(l)).collect();
        if let Some(&b) = by_clause.get(&turned).filter(|&&b| b > a) {
            return Some(entry(5, a as u32, b as u32));
        }
    }
    None
}

/// A permitted step of kind 6 or 7 whose weight counts; it is a candidate if its result fits.
struct Weighed {
    entry: Entry,
    weight: usize,
    fits: bool,
}

/// Kind 6 counts only where the weight falls. From left to right.
fn resolve_candidates(f: &Formula, at: &Occurrences) -> Vec<Weighed> {
    let all: HashSet<&Clause> = f.clauses.iter().collect();
    let places = f.places();
    let mut list = Vec::new();
    for b in &f.prefix {
        let mut with: Vec<usize> = at.of_literal(plain(b.var)).iter().chain(at.of_literal(negated(b.var))).copied().collect();
        with.sort_unstable();
        let with: Vec<&Clause> = with.into_iter().map(|i| &f.clauses[i]).collect();
        let Some((clauses, literals)) = resolve::measure(f, &places, b.var, &with, &all) else { continue };
        let weight = f.prefix.len() - 1 + clauses + literals;
        if weight < f.weight() {
            let fits = clauses <= limits::CLAUSES && literals <= limits::LITERALS;
            list.push(Weighed { entry: entry(6, b.var, 0), weight, fits });
        }
    }
    list
}

/// Kind 7 counts only where the weight falls or rises by at most E. From left to right.
fn expand_candidates(f: &Formula, allowance: u64) -> Vec<Weighed> {
    let mut list = Vec::new();
    for b in &f.prefix {
        let e = entry(7, b.var, 0);
        let Some(result) = whole(f, e) else { continue };
        if result.weight() as u64 <= f.weight() as u64 + allowance {
            list.push(Weighed { entry: e, weight: result.weight(), fits: result.fits() });
        }
    }
    list
}
