//! Kind 7: a universal variable expanded into its two values.

use crate::model::formula::{exists, negated, plain, var, Bound, Building, Clause, Formula, Lit, Places, Quantifier, Var};
use crate::model::tidy::tidy;
use std::collections::{HashMap, HashSet};

/// Expand (variable a): universal u with no existential followed by a universal to its right. First the clauses with no
/// existential right of u; then the others with u false; then the others with u true and every existential right of u
/// renamed. Copies take the smallest numbers not in the prefix before the step, in prefix order, and stand at the right end.
pub fn expand(f: &Formula, u: Var) -> Option<Formula> {
    let places = f.places();
    let (place, quantifier) = places.find(u)?;
    if quantifier != Quantifier::Forall {
        return None;
    }
    let right = &f.prefix[place + 1..];
    if right.windows(2).any(|pair| pair[0].is_existential() && !pair[1].is_existential()) {
        return None;
    }
    let copied: Vec<Var> = right.iter().filter(|b| b.is_existential()).map(|b| b.var).collect();
    let copies: HashMap<Var, Var> = copied.iter().copied().zip(free_numbers(&f.prefix)).collect();
    let mut prefix = f.prefix_without(u);
    prefix.extend(copied.iter().map(|v| exists(copies[v])));

    let new_places = Places::new(&prefix);
    let (inner, others): (Vec<&Clause>, Vec<&Clause>) =
        f.clauses.iter().partition(|c| c.iter().any(|&l| copies.contains_key(&var(l))));
    let mut clauses = Building::default();
    for clause in others {
        clauses.push(clause.clone());
    }
    for clause in &inner {
        if let Some(rest) = with_false(clause, plain(u)) {
            clauses.push_tidied(tidy(&rest, &new_places));
        }
    }
    for clause in &inner {
        if let Some(rest) = with_false(clause, negated(u)) {
            let renamed: Vec<Lit> = rest.iter().map(|&l| copies.get(&var(l)).map_or(l, |&copy| plain(copy) + l % 2)).collect();
            clauses.push_tidied(tidy(&renamed, &new_places));
        }
    }
    Some(Formula { prefix, clauses: clauses.done() })
}

/// What is left of a clause if the literal is false; nothing if its opposite, which is true, stands in it.
fn with_false(clause: &Clause, literal: Lit) -> Option<Vec<Lit>> {
    if clause.contains(&(literal ^ 1)) {
        return None;
    }
    Some(clause.iter().copied().filter(|&l| l != literal).collect())
}

/// The numbers from 1 on that no variable of the prefix has, with no end.
fn free_numbers(prefix: &[Bound]) -> impl Iterator<Item = Var> {
    let taken: HashSet<Var> = prefix.iter().map(|b| b.var).collect();
    (1..).filter(move |v| !taken.contains(v))
}
