//! Document 01's "Checks at the edges": P1 to P10, the limits it names, and the program's example, typed from the document.

use crate::model::choice::{choice, Choice};
use crate::model::entry::entry;
use crate::model::face::{answer_to, program, Call, Operation, Record};
use crate::model::formula::{exists, forall, from_signed, Bound, Clause, Formula};
use crate::model::limits::{answer, TABLE};
use crate::model::reading::{read, Fault};
use crate::model::run::run;
use crate::model::steps::step;
use crate::model::table::{counts, encode};
use crate::tally::Tally;

/// Clauses by the numbers of a text.
pub fn clauses(list: &[&[i64]]) -> Vec<Clause> {
    let in_order = |c: &&[i64]| {
        let mut clause: Clause = c.iter().map(|&n| from_signed(n)).collect();
        clause.sort_unstable();
        clause
    };
    list.iter().map(in_order).collect()
}

pub fn formula(prefix: &[Bound], list: &[&[i64]]) -> Formula {
    Formula { prefix: prefix.to_vec(), clauses: clauses(list) }
}

pub fn p6() -> Formula {
    formula(&[1, 2, 3, 4, 5].map(exists), &[&[5, -1], &[5, 1, 3], &[5, -4], &[-5, 1], &[-5, 2, 4]])
}

pub fn p7() -> Formula {
    formula(&[forall(1), exists(2)], &[&[1, 2], &[-1, -2]])
}

pub fn p8() -> Formula {
    formula(&[forall(1), exists(2)], &[&[1, 2], &[1, -2]])
}

pub fn p9() -> Formula {
    formula(&[exists(1), forall(2), exists(3)], &[&[2, -3], &[-2, 3], &[-1, 3], &[1, -3]])
}

const EXAMPLE: &str = "p cnf 3 4\ne 1 0\na 2 0\ne 3 0\n2 -3 0\n-2 3 0\n-1 3 0\n1 -3 0\n";
const PRINTED: &str = "c FALSE 2\np cnf 2 1\na 2 0\n0\n";

fn equal<T: PartialEq + std::fmt::Debug>(tally: &mut Tally, name: &str, got: T, wanted: T) {
    tally.check(got == wanted, || format!("{name}: got {got:?}, wanted {wanted:?}"));
}

pub fn check(tally: &mut Tally) {
    equal(tally, "P1", read(b""), Err(Fault { number: answer::SHORT, offset: 0 }));

    let p2 = read(b"p cnf 0 0").unwrap_or_default();
    let ran = run(&p2, 0, 10, 40);
    equal(tally, "P2", (ran.outcome, ran.steps), (answer::TRUE, 0));
    let p3 = read(b"p cnf 0 1 0").unwrap_or_default();
    equal(tally, "P3", run(&p3, 0, 10, 40).outcome, answer::FALSE);

    equal(tally, "P4", read(b"p cnf 1 1 a 1 0 1 0"), Ok(formula(&[forall(1)], &[&[]])));
    equal(tally, "P5", read(b"p cnf 1 1 e 1 0 1 -1 0"), Ok(formula(&[exists(1)], &[])));

    equal(tally, "P6, literals before", p6().literals(), 12);
    let resolved = step(&p6(), entry(6, 5, 0).bits());
    let wanted = formula(&[1, 2, 3, 4].map(exists), &[&[-1, 2, 4], &[1, 3], &[1, 2, 3, 4], &[1, -4]]);
    equal(tally, "P6, literals after", wanted.literals(), 11);
    equal(tally, "P6", resolved, Ok(wanted));

    let expanded = step(&p7(), entry(7, 1, 0).bits());
    equal(tally, "P7", expanded, Ok(formula(&[exists(2), exists(3)], &[&[2], &[-3]])));
    equal(tally, "P8", step(&p8(), entry(2, 1, 0).bits()), Ok(formula(&[exists(2)], &[&[2], &[-2]])));
    equal(tally, "P9", step(&p9(), entry(6, 1, 0).bits()), Err(answer::NOT_PERMITTED));
    equal(tally, "P10", entry(5, 0, 1).bytes(), [0xa0, 0, 0, 0x80]);
    let taken = matches!(choice(&p9(), 0), Choice::Take(e, _) if e == entry(5, 0, 1));
    tally.check(taken, || "P10: the run of P9's formula begins with another entry".to_string());

    equal(tally, "M 1,023", read(b"p cnf 1023 0").map(|f| f.prefix.len()), Ok(0));
    equal(tally, "M 1,024", read(b"p cnf 1024 0"), Err(Fault { number: answer::TOO_BIG, offset: 6 }));
    equal(tally, "E 1,000", run_answer(1000), answer::TRUE);
    equal(tally, "E 1,001", run_answer(1001), answer::ALLOWANCE);

    let printed = String::from_utf8_lossy(&program(EXAMPLE.as_bytes())).into_owned();
    equal(tally, "the program's example", printed.as_str(), PRINTED);
}

/// The answer of a run on P7's formula with allowance E.
fn run_answer(allowance: u64) -> u8 {
    let f = p7();
    let call = Call {
        operation: Operation::Run,
        record: Record { side: 0, counts: counts(&f) },
        a: allowance,
        b: 100,
        tables: [encode(&f), vec![0; TABLE]],
        bytes: vec![0; 400],
    };
    answer_to(&call).answer
}
