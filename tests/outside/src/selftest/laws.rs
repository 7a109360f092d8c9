//! The model's parts against each other: a written formula reads as itself, a table decodes to what was encoded, each step's
//! result is well formed, and the choice with occurrence lists is the one that trying every entry gives.

use crate::cases::entries::permitted;
use crate::cases::formulas::{hard, random, MIDDLE, SMALL, WIDE};
use crate::model::choice::{choice, Choice};
use crate::model::formula::Formula;
use crate::model::plain_choice::plain_choice;
use crate::model::reading::read;
use crate::model::steps::whole;
use crate::model::table::{counts, decode, encode};
use crate::model::writing::write;
use crate::rng::Rng;
use crate::tally::Tally;

pub fn check(tally: &mut Tally, seed: u64) {
    for number in 0..6000 {
        let mut rng = Rng::of_case(seed, "laws", number);
        let size = *rng.pick(&[SMALL, SMALL, SMALL, MIDDLE, MIDDLE, WIDE]);
        let f = if number % 4 == 0 { hard(&mut rng, 9) } else { random(&mut rng, size) };
        let text = write(&f);
        let shown = || String::from_utf8_lossy(&text).into_owned();
        tally.check(read(&text).as_ref() == Ok(&f), || format!("does not read as it was written:\n{}", shown()));
        well_formed(tally, &f, &shown);
        if size.variables < WIDE.variables {
            for kind in 1..=7 {
                for e in permitted(&f, kind) {
                    well_formed(tally, &whole(&f, e).expect("permitted"), &shown);
                }
            }
            check_choices(tally, &mut rng, &f);
        }
    }
}

fn well_formed(tally: &mut Tally, f: &Formula, shown: &dyn Fn() -> String) {
    if f.fits() {
        let back = decode(&encode(f), &counts(f));
        tally.check(back.as_ref() == Some(f), || format!("not well formed, or after a step from it:\n{}", shown()));
    }
}

/// Both choices along a run.
fn check_choices(tally: &mut Tally, rng: &mut Rng, f: &Formula) {
    let allowance = *rng.pick(&[0, 1, 5, 30, 1000]);
    let mut now = f.clone();
    for _ in 0..40 {
        let chosen = choice(&now, allowance);
        let plain = plain_choice(&now, allowance);
        tally.check(chosen == plain, || format!("{chosen:?}\nand plainly {plain:?}\nwith E {allowance}"));
        match chosen {
            Choice::Take(_, result) => now = result,
            _ => return,
        }
    }
}
