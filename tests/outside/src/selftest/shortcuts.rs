//! Document 01's "Shortcuts that give false verdicts": each shortcut, taken by hand, changes the truth, so the plain search
//! tells a wrong step from a right one.

use super::edges::{formula, p7, p8, p9};
use crate::model::formula::{exists, forall, var};
use crate::model::truth::is_true;
use crate::tally::Tally;

pub fn check(tally: &mut Tally) {
    let truth = |tally: &mut Tally, what: &str, f, wanted: bool| {
        tally.check(is_true(&f) == wanted, || format!("{what}: should be {wanted}"));
    };
    truth(tally, "P9's formula", p9(), false);
    let mut without_x = p9();
    without_x.prefix = vec![forall(2), exists(3)];
    without_x.clauses.retain(|c| c.iter().all(|&l| var(l) != 1));
    truth(tally, "P9's formula without x's clauses", without_x, true);

    truth(tally, "P7's formula", p7(), true);
    truth(tally, "P7's formula expanded without renaming", formula(&[exists(2)], &[&[2], &[-2]]), false);

    truth(tally, "P8's formula", p8(), false);
    truth(tally, "P8's formula with the pure universal true", formula(&[exists(2)], &[]), true);
}
