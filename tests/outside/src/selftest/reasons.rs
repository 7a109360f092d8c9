//! Why a variable is left: reasons worked out by hand from document 02's sentences, and for every variable of random formulas
//! that the reason given is true and that no other one is, by trying entries and looking at the lists alone.

use super::edges::{formula, p6, p7, p9};
use crate::cases::formulas::{hard, random, MIDDLE, SMALL};
use crate::cases::regular::{regular_expandable, regular_mixed};
use crate::cases::tight::{self, rise_of, ASKED};
use crate::cases::{heavy, interlock::interlock};
use crate::model::choice::Choice;
use crate::model::entry::entry;
use crate::model::face::{answer_to, Call, Operation, Record};
use crate::model::formula::{exists, forall, var, Bound, Formula, Var};
use crate::model::limits::{self, answer, TABLE};
use crate::model::plain_choice::plain_choice;
use crate::model::reason::{reason, Limit, Reason};
use crate::model::run::run;
use crate::model::steps::whole;
use crate::model::table::{counts, encode};
use crate::model::writing::write;
use crate::rng::Rng;
use crate::tally::Tally;

pub fn check(tally: &mut Tally, seed: u64) {
    small(tally);
    at_the_limits(tally);
    far_larger(tally);
    refused(tally);
    true_and_only(tally, seed);
}

fn equal(tally: &mut Tally, name: &str, got: Option<Reason>, wanted: Reason) {
    tally.check(got == Some(wanted), || format!("{name}: got {got:?}, wanted {wanted:?}"));
}

/// The clauses of `rings` in the same order: 1 in three with each phase, over 2 3 4 and over 5 6 7. No two have the same
/// variables, and each variable stands in both phases, so kinds 1 to 5 find nothing.
const RINGS: [&[i64]; 6] = [&[1, 2, 3], &[1, -2, 4], &[1, -3, -4], &[-1, 5, 6], &[-1, -5, 7], &[-1, -6, -7]];

/// The same with universals 8 and 9 in both phases, in other clauses than the first.
const WITH_UNIVERSALS: [&[i64]; 6] =
    [&[1, 2, 3], &[1, -2, 4, 8], &[1, -3, -4, -8], &[-1, 5, 6], &[-1, -5, 7, 9], &[-1, -6, -7, -9]];

fn e(vars: &[Var]) -> Vec<Bound> {
    vars.iter().map(|&v| exists(v)).collect()
}

fn a(vars: &[Var]) -> Vec<Bound> {
    vars.iter().map(|&v| forall(v)).collect()
}

fn small(tally: &mut Tally) {
    let no_clause = formula(&[exists(1), forall(2)], &[]);
    equal(tally, "no clause", reason(&no_clause, 1, 0), Reason::True);
    equal(tally, "no clause, a universal", reason(&no_clause, 2, 0), Reason::True);
    let empty_clause = formula(&[exists(1), forall(2)], &[&[1], &[]]);
    equal(tally, "an empty clause beside a unit", reason(&empty_clause, 2, 0), Reason::False);

    // The run's next entry, whatever variable is asked about.
    for v in [1, 2, 3] {
        equal(tally, "P9", reason(&p9(), v, 0), Reason::Next(entry(5, 0, 1)));
    }
    equal(tally, "P6: 2 is pure", reason(&p6(), 5, 0), Reason::Next(entry(2, 2, 0)));
    equal(tally, "P7: its clauses are an equality", reason(&p7(), 1, 1000), Reason::Next(entry(5, 0, 1)));

    // 7 variables, 6 clauses, 18 literals. Resolving 1: 9 resolvents of 4 literals. Resolving 2: one of 3 literals for two
    // clauses of 3.
    let rings = formula(&e(&[1, 2, 3, 4, 5, 6, 7]), &RINGS);
    equal(tally, "not lighter", reason(&rings, 1, 0), Reason::NotLighter { weight: 31, after: 51 });
    equal(tally, "not lighter, E does not matter", reason(&rings, 1, 1000), Reason::NotLighter { weight: 31, after: 51 });
    equal(tally, "lighter", reason(&rings, 2, 0), Reason::Own(entry(6, 2, 0)));
    equal(tally, "lighter, not the run's choice", reason(&rings, 7, 0), Reason::Own(entry(6, 7, 0)));
    // 5 variables, 4 clauses, 10 literals; (1 2 3) and (-1 4 5) give one clause of four.
    let even = formula(&e(&[1, 2, 3, 4, 5]), &[&[1, 2, 3], &[-1, 4, 5], &[-2, -4], &[-3, -5]]);
    equal(tally, "one resolvent", reason(&even, 1, 0), Reason::Own(entry(6, 1, 0)));
    // The same weight is not lower. x = 1 in (1 2 3 4), (-1 5 6), (-1 7 8): 10 literals and 3 clauses become (2 3 4 5 6) and
    // (2 3 4 7 8), 10 literals and 2 clauses: two lighter. With one literal more in the first clause, 11 become 12, one
    // lighter; with two more, 12 become 14, and the weight stays.
    let rest: [&[i64]; 6] = [&[-2, -3, -4], &[-5, -7, -9], &[-6, -8, -10], &[-2, -5, -8], &[-3, -6, 9], &[-4, -9, 10]];
    let clauses = |first: &'static [i64]| [&[first, &[-1, 5, 6], &[-1, 7, 8]], &rest[..]].concat();
    let ten = e(&[1, 2, 3, 4, 5, 6, 7, 8, 9, 10]);
    let same = formula(&ten, &clauses(&[1, 2, 3, 4, 9, 10]));
    equal(tally, "the same weight", reason(&same, 1, 0), Reason::NotLighter { weight: 10 + 9 + 30, after: 10 + 9 + 30 });
    let lighter = formula(&ten, &clauses(&[1, 2, 3, 4, 9]));
    equal(tally, "lighter by one", reason(&lighter, 1, 0), Reason::Own(entry(6, 1, 0)));

    // 1, then universals 8 and 9, then the rest: 3 stands left of 2.
    let far = formula(&[e(&[1]), a(&[8, 9]), e(&[3, 2, 4, 5, 6, 7])].concat(), &WITH_UNIVERSALS);
    equal(tally, "too far right", reason(&far, 1, 0), Reason::TooFarRight { clause: 0, variable: 3, universal: 8 });
    // The lowest clause with 1 that has one is not its first, and the universal itself stands furthest left in it.
    let later = formula(&[e(&[2, 3, 1]), a(&[9, 8]), e(&[4, 5, 6, 7])].concat(), &WITH_UNIVERSALS);
    equal(
        tally,
        "the first clause is not it",
        reason(&later, 1, 0),
        Reason::TooFarRight { clause: 1, variable: 8, universal: 9 },
    );
    let itself = formula(&[e(&[2, 3, 1]), a(&[8, 9]), e(&[4, 5, 6, 7])].concat(), &WITH_UNIVERSALS);
    equal(tally, "the universal itself", reason(&itself, 1, 0), Reason::TooFarRight { clause: 1, variable: 8, universal: 8 });
    // Nothing is right of the last universal's existentials: 4 is resolved as if there were no universal.
    equal(tally, "right of all universals", reason(&far, 5, 0), Reason::Own(entry(6, 5, 0)));

    // 9 variables, 6 clauses, 22 literals. Expanding 8 with all of 2 to 7 right of it: two clauses hold 8, one goes in each
    // half, the rest twice: 5 and 5 clauses, 14 variables, and 3 + 3 + 3 + 4 + 4 literals in each half.
    let rise = 14 + 10 + 34 - (9 + 6 + 22);
    equal(tally, "expanding counts", reason(&far, 8, rise), Reason::Own(entry(7, 8, 0)));
    equal(tally, "too heavy by one", reason(&far, 8, rise - 1), Reason::TooHeavy { weight: 37, after: 58 });
    equal(tally, "too heavy", reason(&far, 9, 0), Reason::TooHeavy { weight: 37, after: 58 });

    // 8, 9, then existentials, 10 and the rest.
    let mut with_ten = WITH_UNIVERSALS;
    with_ten[0] = &[1, 2, 3, 10];
    with_ten[3] = &[-1, 5, 6, -10];
    let between = formula(&[a(&[8]), e(&[7, 1]), a(&[9, 10]), e(&[2, 3, 4, 5, 6])].concat(), &with_ten);
    equal(tally, "between", reason(&between, 8, 1000), Reason::Between { existential: 7, universal: 9 });
    let one_left = formula(&[a(&[8, 9]), e(&[7, 1]), a(&[10]), e(&[2, 3, 4, 5, 6])].concat(), &with_ten);
    equal(
        tally,
        "a universal beside it does not block",
        reason(&one_left, 8, 1000),
        Reason::Between { existential: 7, universal: 10 },
    );
    // 10 variables, 6 clauses, 24 literals; 10 stands left of five existentials, with 1 left of it in every clause. Two
    // clauses hold 10 and one goes in each half: 14 variables, 10 clauses, 3 + 4 + 4 + 4 + 4 literals in each half.
    equal(tally, "not blocked", reason(&one_left, 10, 0), Reason::TooHeavy { weight: 40, after: 14 + 10 + 38 });
}

fn at_the_limits(tally: &mut Tally) {
    let rng = &mut Rng::new(2);
    let own = |kind: u32| Reason::Own(entry(kind, ASKED, 0));
    let over = Reason::Over;
    for groups in [2, 9, 60] {
        let e = rise_of(groups);
        // The copies of 3 groups existentials need as many free numbers, the universal's not among them.
        let most = 1023 - 3 * groups;
        equal(tally, "variables fit", reason(&tight::expand_from_variables(groups, most), ASKED, e), own(7));
        let f = tight::expand_from_variables(groups, most + 1);
        equal(tally, "1,023 variables, one numbered 1,024", reason(&f, ASKED, e), over(Limit::Variables));
        let heavy = Reason::TooHeavy { weight: f.weight() as u64, after: f.weight() as u64 + e };
        equal(tally, "the weight comes before the limit", reason(&f, ASKED, e - 1), heavy);
        let f = tight::expand_from_variables(groups, 1023);
        equal(tally, "more variables", reason(&f, ASKED, 1000), over(Limit::Variables));

        equal(tally, "2,047 clauses", reason(&tight::expand_to_clauses(rng, groups, 2047), ASKED, e), own(7));
        equal(tally, "2,048 clauses", reason(&tight::expand_to_clauses(rng, groups, 2048), ASKED, e), over(Limit::Clauses));
        equal(tally, "8,191 literals", reason(&tight::expand_to_literals(rng, groups, 8191), ASKED, e), own(7));
        equal(tally, "8,192 literals", reason(&tight::expand_to_literals(rng, groups, 8192), ASKED, e), over(Limit::Literals));
        let both = |rng: &mut Rng, clauses, literals| reason(&tight::expand_to_both(rng, groups, clauses, literals), ASKED, e);
        equal(tally, "2,047 and 8,191", both(rng, 2047, 8191), own(7));
        equal(tally, "2,047 and 8,193", both(rng, 2047, 8193), over(Limit::Literals));
        equal(tally, "2,048 and 8,192", both(rng, 2048, 8192), over(Limit::Clauses));
    }
    equal(tally, "resolving to 2,047", reason(&tight::resolve_to_clauses(rng, 2047), ASKED, 0), own(6));
    equal(tally, "resolving to 2,048", reason(&tight::resolve_to_clauses(rng, 2048), ASKED, 0), over(Limit::Clauses));
    equal(tally, "resolving to 8,191", reason(&tight::resolve_to_literals(rng, 8191), ASKED, 0), own(6));
    equal(tally, "resolving to 8,192", reason(&tight::resolve_to_literals(rng, 8192), ASKED, 0), over(Limit::Literals));
}

fn far_larger(tally: &mut Tally) {
    let rng = &mut Rng::new(3);
    // All 990 pairs of 45 variables in each phase: 91 variables, 1,980 clauses of three literals; 980,100 resolvents of four.
    let after = 90 + 980_100 + 4 * 980_100;
    let f = heavy::apart(rng, 45, 990);
    equal(tally, "all pairs", reason(&f, ASKED, 0), Reason::NotLighter { weight: 91 + 1980 + 5940, after });
    // 12 ways each for 46 and 46 outer variables with 4 and 4 universals: 1,104 clauses of 6 literals and 46 of two in the
    // other phase. Of 304,704 resolvents 2,116 are left, of two literals: lighter, but too many.
    let f = heavy::folded(rng, 46, 4, 12);
    equal(tally, "folded, too many", reason(&f, ASKED, 0), Reason::Over(Limit::Clauses));
    // 8 ways each for 60 and 60 with 3 and 3: 127 variables, 960 clauses of 5 literals and 60 of two; 3,600 of two come.
    let weight = 127 + 1020 + 4920;
    let after = 126 + 3660 + 7320;
    let f = heavy::folded(rng, 60, 3, 8);
    equal(tally, "folded, not lighter", reason(&f, ASKED, 0), Reason::NotLighter { weight, after });
    // The same for 32 and 32: 71 variables, 512 clauses of 5 and 32 of two; 1,024 of two come: lighter by one.
    equal(tally, "folded, lighter by one", reason(&heavy::folded(rng, 32, 3, 8), ASKED, 0), Reason::Own(entry(6, ASKED, 0)));
}

/// The refusals in their order, and what they leave.
fn refused(tally: &mut Tally) {
    let f = formula(&e(&[1, 2, 3, 4, 5, 6, 7]), &RINGS);
    let lent = Call {
        operation: Operation::Reason,
        record: Record { side: 1, counts: counts(&f) },
        a: 1,
        b: 1000,
        tables: [vec![7; TABLE], encode(&f)],
        bytes: Vec::new(),
    };
    let mut case = |name: &str, call: &Call, number: u8, written: bool| {
        let reply = answer_to(call);
        let zero = vec![0; TABLE];
        let spare_right = reply.tables[0] == *if written { &zero } else { &call.tables[0] };
        let rest_right = reply.tables[1] == call.tables[1] && reply.record == call.record && reply.part.is_empty();
        let number_right = reply.answer == number && reply.bytes.len() == 24;
        let silent = number == answer::DONE || (reply.n == 0 && reply.bytes.iter().all(|&b| b == 0));
        tally.check(spare_right && rest_right && number_right && silent, || format!("{name}: answer {}", reply.answer));
    };
    case("a reason", &lent, answer::DONE, true);
    let mut call = Call { a: 8, ..lent.clone() };
    case("not in the prefix", &call, answer::NOT_PERMITTED, true);
    call.a = (1 << 32) + 1;
    case("not in the prefix, but its lower half is", &call, answer::NOT_PERMITTED, true);
    call.b = 1001;
    case("ALLOWANCE before NOT PERMITTED", &call, answer::ALLOWANCE, false);
    call.record.counts.clauses += 1;
    case("MALFORMED before ALLOWANCE", &call, answer::MALFORMED, false);
    call.tables[0].push(7);
    case("LENGTH before MALFORMED", &call, answer::LENGTH, false);
    let decided = formula(&[exists(1)], &[]);
    let call = Call { record: Record { side: 1, counts: counts(&decided) }, tables: [vec![7; TABLE], encode(&decided)], ..lent };
    case("a verdict", &call, answer::TRUE, true);
    case("NOT PERMITTED before a verdict", &Call { a: 2, ..call }, answer::NOT_PERMITTED, true);
}

fn true_and_only(tally: &mut Tally, seed: u64) {
    for number in 0..2500 {
        let mut rng = Rng::of_case(seed, "reasons", number);
        let allowance = *rng.pick(&[0, 1, 5, 30, 1000]);
        let drawn = drawn(&mut rng);
        let steps = *rng.pick(&[0, 3, 1000, 1000]);
        let f = run(&drawn, allowance, steps, 4000).formula;
        let run_does = plain_choice(&f, allowance);
        for b in &f.prefix {
            let given = reason(&f, b.var, allowance).expect("in the prefix");
            let all = holding(&f, *b, allowance, &run_does);
            tally.check(all == [given], || {
                format!(
                    "variable {}, E {allowance}: {given:?}, and these hold: {all:?}\n{}",
                    b.var,
                    String::from_utf8_lossy(&write(&f))
                )
            });
        }
    }
}

fn drawn(rng: &mut Rng) -> Formula {
    match rng.below(6) {
        0 => random(rng, SMALL),
        1 => random(rng, MIDDLE),
        2 => regular_mixed(rng),
        3 => regular_expandable(rng),
        4 => interlock(rng, 4, 4, 8, 8),
        _ => hard(rng, 9),
    }
}

/// Every reason that holds, each looked for by itself: what the run does as trying every entry says it, the step by making it,
/// the rest by all clauses, all variables and all pairs of a prefix.
fn holding(f: &Formula, b: Bound, allowance: u64, run_does: &Choice) -> Vec<Reason> {
    match run_does {
        Choice::True => return vec![Reason::True],
        Choice::False => return vec![Reason::False],
        Choice::Take(e, _) if e.kind <= 5 => return vec![Reason::Next(*e)],
        _ => {}
    }
    let mut list = Vec::new();
    let at = f.prefix.iter().position(|other| *other == b).expect("in the prefix");
    let place = |v: Var| f.prefix.iter().position(|other| other.var == v).expect("in the prefix");
    let kind = if b.is_existential() { 6 } else { 7 };
    if let Some(result) = whole(f, entry(kind, b.var, 0)) {
        let (weight, after) = (f.weight() as u64, result.weight() as u64);
        let counts = if kind == 6 { after < weight } else { after <= weight + allowance };
        let too_many = result.prefix.len() > limits::VARIABLES || result.prefix.iter().any(|b| b.var > 1023);
        list.push(match (counts, kind) {
            (false, 6) => Reason::NotLighter { weight, after },
            (false, _) => Reason::TooHeavy { weight, after },
            _ if too_many => Reason::Over(Limit::Variables),
            _ if result.clauses.len() > limits::CLAUSES => Reason::Over(Limit::Clauses),
            _ if result.literals() > limits::LITERALS => Reason::Over(Limit::Literals),
            _ => Reason::Own(entry(kind, b.var, 0)),
        });
    }
    let universals: Vec<usize> = (at + 1..f.prefix.len()).filter(|&i| !f.prefix[i].is_existential()).collect();
    if kind == 6 {
        for &i in universals.iter().take(1) {
            let mut pairs: Vec<(usize, usize, Var)> = Vec::new();
            for (clause, literals) in f.clauses.iter().enumerate() {
                if literals.iter().any(|&l| var(l) == b.var) {
                    pairs.extend(literals.iter().map(|&l| (clause, place(var(l)), var(l))).filter(|&(_, place, _)| place >= i));
                }
            }
            // The lowest clause, then the leftmost variable.
            if let Some(&(clause, _, variable)) = pairs.iter().min() {
                list.push(Reason::TooFarRight { clause, variable, universal: f.prefix[i].var });
            }
        }
    } else {
        let existentials = (at + 1..f.prefix.len()).filter(|&i| f.prefix[i].is_existential());
        let pairs = existentials.flat_map(|i| universals.iter().filter(move |&&j| j > i).map(move |&j| (i, j)));
        if let Some((i, j)) = pairs.min() {
            list.push(Reason::Between { existential: f.prefix[i].var, universal: f.prefix[j].var });
        }
    }
    list
}
