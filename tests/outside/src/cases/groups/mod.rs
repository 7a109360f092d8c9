//! The groups of cases: a name, how many, and how one is made from its random stream and its number.

mod lent;
mod read;
mod reason;
mod replay;
mod run;
mod shared;
mod step;

use super::text_edges;
use crate::model::face::Call;
use crate::rng::Rng;
use lent::{full_tables, literals, no_formula, one_field_wrong, write_buffer, wrong_lengths};
use read::{read_babble, read_clean, read_damaged, read_edge, read_long};
use reason::{
    reason_every, reason_exact, reason_full, reason_heavy, reason_left, reason_limit, reason_random, reason_refused, HEAVY,
    LIMITS, PLACES,
};
use replay::{replay_bound, replay_damaged, replay_long, replay_random, replay_run};
use run::{
    run_allowance, run_exact, run_folding, run_full, run_growing, run_hard, run_interlock, run_long, run_random, run_regular,
    run_room, run_short, run_wide,
};
use step::{step_bad, step_bound, step_crowded, step_folding, step_near, step_permitted, step_wide, BOUNDS};

pub struct Group {
    pub name: &'static str,
    pub count: usize,
    /// So many calls in a row begin with the same random stream, to ask several things of one formula.
    pub together: usize,
    pub make: fn(&mut Rng, usize) -> Call,
}

impl Group {
    pub fn call(&self, seed: u64, number: usize) -> Call {
        (self.make)(&mut Rng::of_case(seed, self.name, number / self.together), number)
    }
}

pub fn groups() -> Vec<Group> {
    let group = |name, count, make| Group { name, count, together: 1, make };
    let several = |name, formulas, together, make| Group { name, count: formulas * together, together, make };
    vec![
        group("read: short texts at the edges", text_edges::SHORT_TEXTS.len(), read_edge as fn(&mut Rng, usize) -> Call),
        group("read: long texts at the limits", text_edges::long_texts().len(), read_long),
        group("read: texts that read", 500, read_clean),
        group("read: damaged texts", 2500, read_damaged),
        group("read: words in any order", 800, read_babble),
        group("write: buffers long enough and not", 500, write_buffer),
        group("literals", 200, literals),
        group("all but read: one field wrong", 1900, one_field_wrong),
        group("all but read: random tables and counts", 360, no_formula),
        group("all: wrong lengths", 350, wrong_lengths),
        group("step: permitted entries", 2000, step_permitted),
        group("step: near misses", 2000, step_near),
        group("step: bad entries and random ones", 500, step_bad),
        group("step: wider formulas", 150, step_wide),
        group("step: results at the limits", BOUNDS.len() * 3, step_bound),
        group("step: many equal clauses in the result", 60, step_folding),
        group("step: a table crowded with one variable", 30, step_crowded),
        group("all but read: full tables", 120, full_tables),
        group("run: random formulas", 1500, run_random),
        group("run: harder formulas", 600, run_hard),
        group("run: many equal clauses in the result", 60, run_folding),
        group("run: regular formulas with universals", 200, run_regular),
        group("run: allowances that just do", 150, run_exact),
        group("run: interlocks", 150, run_interlock),
        group("run: limits and logs that are short", 600, run_short),
        group("run: wider formulas", 40, run_wide),
        group("run: allowances at the edge", 200, run_allowance),
        group("run: only room is missing", 9, run_room),
        group("run: formulas that grow", 12, run_growing),
        group("run: some thousand steps", 1, run_long),
        group("run: full tables", 15, run_full),
        group("replay: logs of runs", 400, replay_run),
        group("replay: permitted entries in a row", 500, replay_random),
        group("replay: long logs", 10, replay_long),
        group("replay: damaged logs", 600, replay_damaged),
        group("replay: results at the limits", BOUNDS.len(), replay_bound),
        several("reason: every variable of small formulas", 200, PLACES, reason_every as fn(&mut Rng, usize) -> Call),
        group("reason: random formulas", 500, reason_random),
        group("reason: what runs leave", 500, reason_left),
        group("reason: allowances that just do", 150, reason_exact),
        group("reason: refusals in their order", 300, reason_refused),
        group("reason: results at the limits", LIMITS * 2, reason_limit),
        group("reason: results far larger than a table, or folded", HEAVY, reason_heavy),
        group("reason: full tables", 12, reason_full),
    ]
}
