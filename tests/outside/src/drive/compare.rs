//! `outside compare`: every case is sent to the probe, and each result is compared with the model's, field by field.

use super::coverage::Coverage;
use super::probe::Probe;
use super::shown;
use crate::cases::groups::{groups, Group};
use crate::model::face::{answer_to, Call, Operation, Reply};
use crate::rng::Rng;
use crate::tally::Tally;
use crate::wire::{encode_call, BYTES_MOST, TABLE_MOST};
use std::path::PathBuf;
use std::time::Instant;

/// Calls are sent in batches of this many.
const BATCH: usize = 64;

/// If the program ends before its input more often than this, the rest is not tried.
const DEATHS: usize = 20;

pub struct Options {
    pub seed: u64,
    /// Only groups whose name begins with this.
    pub only: String,
    pub command: Vec<String>,
}

struct Comparison {
    options: Options,
    probe: Option<Probe>,
    deaths: usize,
    tally: Tally,
    reported: usize,
    kept: PathBuf,
}

pub fn compare(options: Options) -> i32 {
    let kept = std::env::temp_dir().join(format!("outside-{}", std::process::id()));
    let mut it = Comparison { options, probe: None, deaths: 0, tally: Tally::default(), reported: 0, kept };
    println!("seed {}", it.options.seed);
    let mut whole = Coverage::default();
    let only = it.options.only.clone();
    for group in groups().into_iter().filter(|g| g.name.starts_with(&only)) {
        let began = Instant::now();
        let failed = it.tally.failed;
        let coverage = it.run_group(&group);
        println!(
            "{}: {} cases, {} failed, {:.1} s ({})",
            group.name,
            group.count,
            it.tally.failed - failed,
            began.elapsed().as_secs_f64(),
            coverage.line()
        );
        whole.add(coverage);
    }
    if let Some(probe) = it.probe.take() {
        let ended = probe.finish();
        it.tally.check(ended.is_ok(), || format!("at the end of the input: {}", ended.unwrap_err()));
    }
    if only.is_empty() {
        it.ends_of_the_protocol();
        whole.finish(&mut it.tally);
    }
    it.tally.finish()
}

impl Comparison {
    fn run_group(&mut self, group: &Group) -> Coverage {
        let mut coverage = Coverage::default();
        let mut next = 0;
        while next < group.count {
            let last = (next + BATCH).min(group.count);
            let calls: Vec<Call> = (next..last).map(|i| group.call(self.options.seed, i)).collect();
            let done = self.run_batch(group, next, &calls, &mut coverage);
            next += done;
        }
        coverage
    }

    /// Sends the calls and compares the results. Gives the number of calls dealt with: fewer than all if the program died.
    fn run_batch(&mut self, group: &Group, first: usize, calls: &[Call], coverage: &mut Coverage) -> usize {
        if self.probe.is_none() {
            match Probe::start(&self.options.command) {
                Ok(probe) => self.probe = Some(probe),
                Err(e) => {
                    println!("{e}");
                    std::process::exit(2);
                }
            }
        }
        let probe = self.probe.as_ref().expect("started");
        for call in calls {
            probe.send(encode_call(call));
        }
        for (i, call) in calls.iter().enumerate() {
            let wanted = answer_to(call);
            coverage.count(call, &wanted);
            match self.probe.as_ref().expect("started").receive() {
                Ok(got) if got == wanted => self.tally.passed += 1,
                Ok(got) => {
                    self.tally.failed += 1;
                    let what = shown::differences(&got, &wanted).join("; ");
                    self.report(group, first + i, call, &what, Some(&got), &wanted);
                }
                Err(trouble) => {
                    self.tally.failed += 1;
                    self.report(group, first + i, call, &trouble.what, None, &wanted);
                    self.probe = None;
                    self.deaths += 1;
                    if trouble.hangs || self.deaths > DEATHS {
                        println!("the program hangs or has ended too often: the rest is not tried");
                        std::process::exit(self.tally.finish());
                    }
                    return i + 1;
                }
            }
        }
        calls.len()
    }

    fn report(&mut self, group: &Group, number: usize, call: &Call, what: &str, got: Option<&Reply>, wanted: &Reply) {
        self.reported += 1;
        if self.reported > 20 {
            return;
        }
        let name = format!("{}-{number}.hex", group.name.replace([' ', ':'], "-"));
        let path = self.kept.join(name);
        let written = std::fs::create_dir_all(&self.kept).and_then(|()| std::fs::write(&path, shown::hex(&encode_call(call))));
        println!("DIFFERENCE: seed {}, {}, case {number}: {what}", self.options.seed, group.name);
        println!(
            " the call{}:\n{}",
            written.map_or(String::new(), |()| format!(" (as hex in {})", path.display())),
            shown::call(call)
        );
        println!(" the program's result:\n{}", got.map_or("  none".to_string(), shown::reply));
        println!(" the model's result:\n{}", shown::reply(wanted));
    }

    /// An input that is no call, or that ends inside one, ends the program with nothing more written.
    fn ends_of_the_protocol(&mut self) {
        let good = (groups()[0].make)(&mut Rng::of_case(self.options.seed, "protocol", 0), 20);
        assert!(good.operation == Operation::Read);
        let bytes = encode_call(&good);
        let mut bad: Vec<(&str, Vec<u8>)> = Vec::new();
        let with = |at: usize, new: &[u8]| {
            let mut other = bytes.clone();
            other.splice(at..at + new.len(), new.iter().copied());
            other
        };
        bad.push(("operation 0", with(0, &[0])));
        bad.push(("operation 8", with(0, &[8])));
        bad.push(("side 2", with(1, &[2])));
        bad.push(("a table too long", with(42, &(TABLE_MOST as u32 + 1).to_le_bytes())));
        bad.push(("more numbers than the table has", with(46, &11_262u32.to_le_bytes())));
        bad.push(("an input that ends early", bytes[..bytes.len() - 1].to_vec()));
        bad.push(("an input of one byte", bytes[..1].to_vec()));
        let length_at = bytes.len() - good.bytes.len() - 4;
        bad.push(("bytes too long", with(length_at, &(BYTES_MOST as u32 + 1).to_le_bytes())));
        let wanted = answer_to(&good);
        for (name, last) in bad {
            let ended = Probe::start(&self.options.command).and_then(|probe| {
                probe.send(bytes.clone());
                probe.send(last);
                let first = probe.receive().map_err(|trouble| trouble.what)?;
                if first != wanted {
                    return Err("the call before has another result".to_string());
                }
                probe.ends_with_nothing_more()
            });
            self.tally.check(ended.is_ok(), || format!("protocol, {name}: {}", ended.unwrap_err()));
        }
    }
}
