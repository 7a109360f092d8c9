//! The model checks itself: document 01's own examples, the meaning of the steps and verdicts by plain search, its own parts
//! against each other, and the reasons for which a variable is left.

mod edges;
mod laws;
mod meaning;
mod reasons;
mod refusals;
mod shortcuts;

use crate::tally::Tally;

pub fn selftest(seed: u64) -> i32 {
    let mut tally = Tally::default();
    let parts: [(&str, &dyn Fn(&mut Tally)); 6] = [
        ("checks at the edges", &edges::check),
        ("refusals of reading", &refusals::check),
        ("shortcuts that give false verdicts", &shortcuts::check),
        ("steps and verdicts keep to the game meaning", &|tally| meaning::check(tally, seed)),
        ("the model's parts agree with each other", &|tally| laws::check(tally, seed)),
        ("reasons are true and the only ones", &|tally| reasons::check(tally, seed)),
    ];
    for (name, part) in parts {
        let before = tally.passed + tally.failed;
        part(&mut tally);
        println!("{name}: {} checks", tally.passed + tally.failed - before);
    }
    tally.finish()
}
