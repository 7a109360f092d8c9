//! Writes sets of test formulas: `formulas SET OUT_DIR`, with SET one of solver, bench, public.
//! The sets are the same on every machine and at every call: all chance comes from fixed seeds (draw.rs).

mod draw;
mod families;
mod formula;
mod interlock;
mod judge;
mod ladder;
mod long;
mod output;
mod random;
mod rewrite;
mod sets;
mod switch;

use std::process::ExitCode;

fn main() -> ExitCode {
    let words: Vec<String> = std::env::args().skip(1).collect();
    let (set, directory) = match &words[..] {
        [set, directory] => (set.as_str(), directory.as_str()),
        _ => {
            eprintln!("formulas SET OUT_DIR: SET is solver, bench or public");
            return ExitCode::from(2);
        }
    };
    let entries = match set {
        "solver" => sets::solver::entries(),
        "bench" => sets::bench::entries(),
        "public" => sets::public::entries(),
        _ => {
            eprintln!("formulas: no set {set}");
            return ExitCode::from(2);
        }
    };
    match output::write(directory, &entries) {
        Ok(()) => ExitCode::SUCCESS,
        Err(fault) => {
            eprintln!("formulas: {fault}");
            ExitCode::FAILURE
        }
    }
}
