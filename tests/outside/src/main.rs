//! The comparison from outside: an independent model of document 01, and drivers that compare programs with it.
//!
//! outside selftest [--seed N]
//! outside compare [--seed N] [--only GROUP] PROBE-COMMAND...
//! outside prep [--seed N] PREP-COMMAND...
//! outside stand-in [--spoil K]
//!
//! The first three print 'N passed, M failed' last; the exit status is 0 only if nothing failed, 2 if it could not begin.

mod cases;
mod drive;
mod model;
mod rng;
mod selftest;
mod tally;
mod wire;

const USAGE: &str = "outside selftest|compare|prep|stand-in [--seed N] [--only GROUP] [--spoil K] [COMMAND...]";

fn main() {
    let mut words: Vec<String> = std::env::args().skip(1).collect();
    let mut seed = 1u64;
    let mut spoil = 0u64;
    let mut only = String::new();
    let mode = if words.is_empty() { String::new() } else { words.remove(0) };
    while words.first().is_some_and(|w| w.starts_with("--")) {
        if words.len() < 2 {
            usage();
        }
        let value = words.remove(1);
        match words.remove(0).as_str() {
            "--seed" => seed = value.parse().unwrap_or_else(|_| usage()),
            "--spoil" => spoil = value.parse().unwrap_or_else(|_| usage()),
            "--only" => only = value,
            _ => usage(),
        }
    }
    let status = match (mode.as_str(), words.is_empty()) {
        ("selftest", true) => selftest::selftest(seed),
        ("compare", false) => drive::compare::compare(drive::compare::Options { seed, only, command: words }),
        ("prep", false) => drive::prep::prep(seed, &words),
        ("stand-in", true) => drive::stand_in::stand_in(seed, spoil),
        _ => usage(),
    };
    std::process::exit(status);
}

fn usage() -> ! {
    eprintln!("{USAGE}");
    std::process::exit(2);
}
