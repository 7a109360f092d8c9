//! Kind 6: an existential variable resolved away.

use crate::model::formula::{negated, plain, var, Building, Clause, Formula, Lit, Places, Quantifier, Var};
use crate::model::tidy::tidy;
use std::collections::HashSet;

/// Resolve (variable a): existential x, where every other variable in a clause with x stands left of the first universal
/// right of x, if there is one. x is dropped. Clauses without x stay in order; then resolvents by positive clause, then
/// negative, both-phase ones left out, tidied.
pub fn resolve(f: &Formula, x: Var) -> Option<Formula> {
    let (with, without): (Vec<&Clause>, Vec<&Clause>) = f.clauses.iter().partition(|c| c.iter().any(|&l| var(l) == x));
    if !is_permitted(f, &f.places(), x, &with) {
        return None;
    }
    let prefix = f.prefix_without(x);
    let places = Places::new(&prefix);
    let mut clauses = Building::default();
    for clause in without {
        clauses.push(clause.clone());
    }
    for resolvent in resolvents(&with, x, &places) {
        clauses.push(resolvent);
    }
    Some(Formula { prefix, clauses: clauses.done() })
}

fn is_permitted(f: &Formula, places: &Places, x: Var, with: &[&Clause]) -> bool {
    let Some((place, quantifier)) = places.find(x) else { return false };
    if quantifier != Quantifier::Exists {
        return false;
    }
    let first_universal = (place + 1..f.prefix.len()).find(|&i| !f.prefix[i].is_existential());
    first_universal
        .is_none_or(|universal| with.iter().all(|c| c.iter().all(|&l| var(l) == x || places.place(var(l)) < universal)))
}

/// All resolvents in order, equal ones among them. `places` is of a prefix that may still hold x: no resolvent does.
fn resolvents<'c>(with: &'c [&Clause], x: Var, places: &'c Places) -> impl Iterator<Item = Clause> + 'c {
    let positives = with.iter().filter(move |c| c.contains(&plain(x)));
    positives.flat_map(move |positive| {
        let negatives = with.iter().filter(move |c| c.contains(&negated(x)));
        // Tidying leaves out a resolvent with both phases of a variable.
        negatives.filter_map(move |negative| {
            let both: Vec<Lit> = positive.iter().chain(negative.iter()).copied().filter(|&l| var(l) != x).collect();
            tidy(&both, places)
        })
    })
}

/// The clauses and literals of the whole result, without building it, so that a run can weigh every variable. `with` holds
/// the clauses with x, in order, and `all` every clause of the formula. A resolvent does not hold x, so one that is in `all`
/// is a clause that stays.
pub fn measure(f: &Formula, places: &Places, x: Var, with: &[&Clause], all: &HashSet<&Clause>) -> Option<(usize, usize)> {
    if !is_permitted(f, places, x, with) {
        return None;
    }
    let mut new: HashSet<Clause> = HashSet::new();
    new.extend(resolvents(with, x, places).filter(|c| !all.contains(c)));
    let gone: usize = with.iter().map(|c| c.len()).sum();
    let come: usize = new.iter().map(|c| c.len()).sum();
    Some((f.clauses.len() - with.len() + new.len(), f.literals() - gone + come))
}
