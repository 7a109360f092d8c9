//! Each permitted step keeps the truth; each verdict is the truth; a run's log replays to its final formula; the number of
//! steps keeps to the bound W + U x (E + 1); what is left after any outcome has the truth it began with.

use crate::cases::entries::permitted;
use crate::cases::formulas::{hard, random, Size, MIDDLE, SMALL};
use crate::cases::interlock::interlock;
use crate::model::entry::Entry;
use crate::model::formula::Formula;
use crate::model::limits::answer;
use crate::model::run::{replay, run};
use crate::model::steps::whole;
use crate::model::truth::is_true;
use crate::model::writing::write;
use crate::rng::Rng;
use crate::tally::Tally;

/// Plain search is kept to this many variables.
const SEARCHED: usize = 13;

pub fn check(tally: &mut Tally, seed: u64) {
    let mut of_kind = [0u64; 8];
    for number in 0..6000 {
        let mut rng = Rng::of_case(seed, "meaning", number);
        let f = drawn(&mut rng);
        let truth = is_true(&f);
        for kind in 1..=7 {
            for e in permitted(&f, kind) {
                of_kind[kind as usize] += u64::from(keeps_truth(tally, &f, truth, e));
            }
        }
        check_run(tally, &mut rng, &f, truth);
    }
    // Larger ones for the verdicts alone.
    for number in 0..300 {
        let mut rng = Rng::of_case(seed, "verdicts", number);
        let variables = rng.from(8, 14);
        let f = if rng.coin() { hard(&mut rng, variables) } else { random(&mut rng, MIDDLE) };
        let truth = is_true(&f);
        check_run(tally, &mut rng, &f, truth);
    }
    for (kind, &count) in of_kind.iter().enumerate().skip(1) {
        tally.check(count >= 100, || format!("only {count} steps of kind {kind} were looked at"));
    }
}

/// Formulas of up to seven variables with more clauses than `SMALL` has, so that both truths occur.
fn drawn(rng: &mut Rng) -> Formula {
    match rng.below(5) {
        0 => random(rng, SMALL),
        2 => hard(rng, 7),
        1 => {
            let (readings, drives, gates, rules) = (rng.from(1, 2), rng.from(1, 2), rng.below(3), rng.from(1, 4));
            interlock(rng, readings, drives, gates, rules)
        }
        _ => random(rng, Size { variables: 7, clauses: 14, greatest: 9 }),
    }
}

fn shown(f: &Formula) -> String {
    String::from_utf8_lossy(&write(f)).into_owned()
}

fn keeps_truth(tally: &mut Tally, f: &Formula, truth: bool, e: Entry) -> bool {
    let result = whole(f, e).expect("permitted");
    if result.prefix.len() > SEARCHED {
        return false;
    }
    tally.check(is_true(&result) == truth, || format!("{e:?} changes the truth of\n{}", shown(f)));
    true
}

fn check_run(tally: &mut Tally, rng: &mut Rng, f: &Formula, truth: bool) {
    let allowance = *rng.pick(&[0, 1, 5, 30, 1000]);
    let limit = *rng.pick(&[2, 5, 5000, 5000, 5000]);
    let ran = run(f, allowance, limit, 20_000);
    match ran.outcome {
        answer::TRUE => tally.check(truth, || format!("TRUE of a false formula\n{}", shown(f))),
        answer::FALSE => tally.check(!truth, || format!("FALSE of a true formula\n{}", shown(f))),
        _ if ran.formula.prefix.len() <= SEARCHED => {
            tally.check(is_true(&ran.formula) == truth, || format!("a run changes the truth of\n{}", shown(f)));
        }
        _ => {}
    }
    let replayed = replay(f, &ran.log);
    let same = replayed.answer == answer::DONE && replayed.applied == ran.steps && replayed.formula == ran.formula;
    tally.check(same, || format!("the log does not replay on\n{}", shown(f)));
    tally.check(ran.log.len() as u64 == 4 * ran.steps, || "the log has another length".to_string());
    let bound = f.weight() as u64 + f.universals() as u64 * (allowance + 1);
    tally.check(ran.steps <= bound, || format!("{} steps, bound {bound}, on\n{}", ran.steps, shown(f)));
}
