//! The pigeonhole principle: A. Haken, "The Intractability of Resolution", Theoretical Computer Science 39, 1985. All
//! existential.

use crate::formula::Formula;

/// Each pigeon has a hole, and no hole has two pigeons: true exactly if the pigeons are no more than the holes.
/// 16 pigeons and 15 holes fit.
pub fn pigeonhole(pigeons: usize, holes: usize) -> Formula {
    let mut formula = Formula::new();
    let sits = formula.exists(pigeons * holes);
    for pigeon in 0..pigeons {
        formula.clause(&sits[pigeon * holes..(pigeon + 1) * holes]);
    }
    for hole in 0..holes {
        for second in 0..pigeons {
            for first in 0..second {
                formula.clause(&[-sits[first * holes + hole], -sits[second * holes + hole]]);
            }
        }
    }
    formula
}
