//! Set `public`: the QBF instances that can be had from Debian's packages, number by number. The README says where was
//! looked.

use crate::families::impl_chain::impl_chain;
use crate::formula::{Block, Formula, Quantifier};
use crate::output::Entry;

pub fn entries() -> Vec<Entry> {
    let mut entries = Vec::new();
    let mut add = |name: &str, truth, says: &str, formula| {
        entries.push(Entry::new(format!("public_{name}"), "public", Some(truth), says.to_string(), formula));
    };
    add("impl02", true, "QBFLIB's impl02 as printed in hol-light's QBF/README", impl_chain(2, false));
    let scope = "package depqbf, examples/basic-api-example.c, after";
    let ae = |clauses: &[&[i32]]| written(&[(Quantifier::Forall, &[1]), (Quantifier::Exists, &[2])], clauses);
    add("depqbf_basic_two", true, &format!("{scope} two clauses"), ae(&[&[1, -2], &[-1, 2]]));
    add("depqbf_basic_three", false, &format!("{scope} three clauses"), ae(&[&[1, -2], &[-1, 2], &[1, 2]]));
    let groups: &[(Quantifier, &[i32])] = &[(Quantifier::Forall, &[1, 2]), (Quantifier::Exists, &[3, 4])];
    let clauses: &[&[i32]] = &[&[-1, -3], &[1, 2, 4], &[1, -4]];
    add("depqbf_groups", false, "package depqbf, examples/basic-clause-groups-api-example.c", written(groups, clauses));
    let selectors = [&[(Quantifier::Exists, &[5, 6][..])], groups].concat();
    let clauses: &[&[i32]] = &[&[5, -1, -3], &[6, 1, 2, 4], &[6, 1, -4]];
    let says = "package depqbf, examples/basic-clause-groups-api-example-assumptions.c, no assumption";
    add("depqbf_selectors", true, says, written(&selectors, clauses));
    entries
}

fn written(prefix: &[(Quantifier, &[i32])], clauses: &[&[i32]]) -> Formula {
    let prefix: Vec<Block> =
        prefix.iter().map(|&(quantifier, variables)| Block { quantifier, variables: variables.to_vec() }).collect();
    let largest = prefix.iter().flat_map(|block| block.variables.iter().copied()).max().unwrap_or(0);
    Formula { prefix, clauses: clauses.iter().map(|clause| clause.to_vec()).collect(), largest }
}
