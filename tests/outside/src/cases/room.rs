//! Formulas on which a run ends OUT OF ROOM, for each limit, or just does not.

use super::formulas::of_raw;
use super::regular::regular;
use crate::model::formula::{exists, forall, negated, plain, Bound, Formula, Lit};
use crate::rng::Rng;

/// A formula where nothing is left but one kind 7 step with a result over the limit of variables (E 1,000), or just not.
pub fn expand_out_of_room(rng: &mut Rng, over: bool) -> Formula {
    let inner = if over { 97 } else { 96 };
    let outer: Vec<u32> = (1..=830).collect();
    let right: Vec<u32> = (832..832 + inner).collect();
    let mut raw = regular(rng, &outer, 3, 3);
    let mut inner_clauses = regular(rng, &right, 3, 3);
    for (i, clause) in inner_clauses.iter_mut().enumerate().take(6) {
        clause.push(plain(831) + i as u32 % 2);
    }
    raw.extend(inner_clauses);
    let mut prefix: Vec<Bound> = outer.iter().map(|&v| exists(v)).collect();
    prefix.push(forall(831));
    prefix.extend(right.iter().map(|&v| exists(v)));
    of_raw(prefix, &raw)
}

/// A formula where the one kind 6 step that makes the weight fall has one clause more than it begins with: six resolvents
/// that lose their universals come for five clauses. It begins with `clauses` clauses.
pub fn resolve_out_of_clauses(rng: &mut Rng, clauses: usize) -> Formula {
    let outer: Vec<u32> = (1..=780).collect();
    let mut raw = regular(rng, &outer, 4, 3);
    raw.truncate(clauses - 5);
    let at = |v: u32| plain(900 + v);
    let not = |v: u32| negated(900 + v);
    let (x, not_x) = (plain(950), negated(950));
    raw.push(vec![x, plain(1), at(1), at(2), at(3)]);
    raw.push(vec![x, plain(2), not(1), not(2), not(3)]);
    raw.push(vec![not_x, plain(3), at(4), at(5)]);
    raw.push(vec![not_x, plain(4), not(4), at(6)]);
    raw.push(vec![not_x, plain(5), not(5), not(6)]);
    let mut prefix: Vec<Bound> = outer.iter().map(|&v| exists(v)).collect();
    prefix.extend((901..=906).map(forall));
    prefix.push(exists(950));
    of_raw(prefix, &raw)
}

/// The same with one more kind 6 step, on variable 960, whose weight falls less but whose result fits: it is taken first, and
/// then the other fits as well.
pub fn best_does_not_fit(rng: &mut Rng) -> Formula {
    let mut f = resolve_out_of_clauses(rng, 2045);
    let last = f.prefix.pop().expect("x");
    f.prefix.insert(780, exists(960));
    f.prefix.push(last);
    let mut raw = f.clauses;
    raw.push(vec![plain(960), plain(10), plain(20)]);
    raw.push(vec![negated(960), plain(30), plain(40)]);
    of_raw(f.prefix, &raw)
}

/// A formula where the one kind 6 step that makes the weight fall has one literal more than it begins with: one positive
/// clause of five, two negative ones. It begins with `literals` literals.
pub fn resolve_out_of_literals(rng: &mut Rng, literals: usize) -> Formula {
    let outer: Vec<u32> = (1..=818).collect();
    let mut raw = vec![
        vec![plain(1023), plain(1), plain(2), plain(3), plain(4)],
        vec![negated(1023), plain(5), plain(6)],
        vec![negated(1023), plain(7), plain(8)],
    ];
    let mut total: usize = 11;
    for clause in regular(rng, &outer, 5, 5) {
        if total + clause.len() <= literals {
            total += clause.len();
            raw.push(clause);
        }
    }
    // What is missing goes into the last clause, as variables it does not hold yet.
    let last = raw.last_mut().expect("many clauses");
    let new: Vec<Lit> = outer.iter().map(|&v| plain(v)).filter(|l| !last.contains(l) && !last.contains(&(l ^ 1))).collect();
    last.extend(&new[..literals - total]);
    of_raw(outer.iter().copied().chain([1023]).map(exists).collect(), &raw)
}
