//! What reading refuses, with the number and the offset worked out by hand from document 01's sentences.

use crate::model::limits::answer::{COUNT, RANGE, SHORT, SYNTAX, TOO_BIG, TWICE, UNBOUND};
use crate::model::reading::{read, Fault};
use crate::tally::Tally;

const REFUSED: &[(&str, u8, usize)] = &[
    // The end comes before the formula's: the offset is the text's length.
    ("c all comment", SHORT, 13),
    ("c p cnf 0 0\n", SHORT, 12),
    ("p cnf 1", SHORT, 7),
    ("p cnf 1 0 e 1 ", SHORT, 14),
    ("p cnf 1 1 e 1 0 1", SHORT, 17),
    ("p cnf 1 1 e 1 0 ", SHORT, 16),
    // A token out of place.
    ("  q", SYNTAX, 2),
    ("p dnf 1 1", SYNTAX, 2),
    ("p cnf 01 1", SYNTAX, 6),
    ("p cnf 1 -1", SYNTAX, 8),
    ("p cnf 1 1 e -1 0", SYNTAX, 12),
    ("p cnf 1 1 e +1 0", SYNTAX, 12),
    ("p cnf 1 1 e 1 0 -0", SYNTAX, 16),
    ("p cnf 1 1 e 1 0 1 e", SYNTAX, 18),
    ("p cnf 2 2 e 1 0 0 e 2 0", SYNTAX, 18),
    ("p cnf 1 1 c after p\n", SYNTAX, 10),
    // Too big, before anything that follows.
    ("p cnf 1024 x", TOO_BIG, 6),
    ("p cnf 1023 2048 x", TOO_BIG, 11),
    ("p cnf 99999999999999999999999 0", TOO_BIG, 6),
    // Variables.
    ("p cnf 2 1 e 0", RANGE, 12),
    ("p cnf 2 1 e 3 0", RANGE, 12),
    ("p cnf 2 1 e 1 0 -3 0", RANGE, 16),
    ("p cnf 0 1 1", RANGE, 10),
    ("p cnf 2 1 e 1 1 0", TWICE, 14),
    ("p cnf 2 1 e 1 0 a 1 0", TWICE, 18),
    ("p cnf 2 1 e 1 0 2 0", UNBOUND, 16),
    ("p cnf 2 1 -2 0", UNBOUND, 10),
    // After C clauses any token, whatever it is.
    ("p cnf 0 0 0", COUNT, 10),
    ("p cnf 0 0 x", COUNT, 10),
    ("p cnf 0 1 0 e", COUNT, 12),
    ("p cnf 0 1 0 -0", COUNT, 12),
    ("p cnf 1 0 e 1 0 1", COUNT, 16),
    // With C = 0 a quantifier line is still read by its own rules.
    ("p cnf 1 0 e x", SYNTAX, 12),
    ("p cnf 1 0 e 0", RANGE, 12),
    ("p cnf 1 0 e", SHORT, 11),
];

pub fn check(tally: &mut Tally) {
    for &(text, number, offset) in REFUSED {
        let got = read(text.as_bytes());
        let wanted = Err(Fault { number, offset });
        tally.check(got == wanted, || format!("{text:?}: got {got:?}, wanted {wanted:?}"));
    }
    for text in ["p cnf 0 0", "cp\nc\n p\r\ncnf\t1023 0", "p cnf 2 0 e 1 0 e 2 0", "p cnf 2 1 e 1 0 a 2 0\n0", "p cnf 5 1 0"] {
        let got = read(text.as_bytes());
        tally.check(got.is_ok(), || format!("{text:?}: refused, {got:?}"));
    }
}
