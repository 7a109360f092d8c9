//! Tidying a clause: repeats go, a clause with both phases of a variable goes, then universals with no existential of the
//! clause to their right go.

use super::formula::{var, Clause, Lit, Places};

/// The tidied clause, or nothing if the clause is dropped. Every variable of it stands in the prefix.
pub fn tidy(literals: &[Lit], places: &Places) -> Option<Clause> {
    let mut clause: Clause = literals.to_vec();
    clause.sort_unstable();
    clause.dedup();
    if clause.windows(2).any(|pair| var(pair[0]) == var(pair[1])) {
        return None;
    }
    let last = last_existential(&clause, places);
    clause.retain(|&l| places.is_existential(var(l)) || last.is_some_and(|place| places.place(var(l)) < place));
    Some(clause)
}

/// Is it tidy as it stands: no variable twice, and every universal has an existential of the clause to its right?
pub fn is_tidy(clause: &[Lit], places: &Places) -> bool {
    let mut vars: Vec<u32> = clause.iter().map(|&l| var(l)).collect();
    vars.sort_unstable();
    let once = vars.windows(2).all(|pair| pair[0] != pair[1]);
    let last = last_existential(clause, places);
    once && clause.iter().all(|&l| places.is_existential(var(l)) || last.is_some_and(|place| places.place(var(l)) < place))
}

fn last_existential(clause: &[Lit], places: &Places) -> Option<usize> {
    clause.iter().map(|&l| var(l)).filter(|&v| places.is_existential(v)).map(|v| places.place(v)).max()
}
