//! Set `bench`: full-size inputs, and series of sizes n, 2n, 4n by which growth can be read off.

use crate::draw::Draw;
use crate::families::{completion, equality, impl_chain, kbkf, ordering, parity, pigeonhole};
use crate::interlock::{interlock, Defect, Plan};
use crate::ladder::ladder;
use crate::long;
use crate::output::Entry;
use crate::random;
use crate::rewrite;

pub fn entries() -> Vec<Entry> {
    let mut entries = Vec::new();
    tables(&mut entries);
    by_chance(&mut entries);
    long_runs(&mut entries);
    families(&mut entries);
    entries
}

/// Interlock tables: a series of three, then seven sizes more, the last with a defect as well.
fn tables(entries: &mut Vec<Entry>) {
    let sizes = [
        (10, 75, 95, 225),
        (14, 120, 100, 360),
        (16, 140, 130, 420),
        (20, 150, 190, 450),
        (24, 190, 220, 520),
        (28, 220, 250, 600),
        (32, 250, 300, 680),
        (36, 280, 340, 760),
        (40, 300, 380, 800),
    ];
    for (readings, drives, gates, rows) in sizes {
        let plan = Plan { readings, drives, gates, rows, stages: true, defect: Defect::None, seed: 7000 + readings as u64 };
        let size = format!("{readings}r_{drives}d_{gates}g");
        let says = format!("interlock table of {readings} readings, {drives} drives, {gates} gates");
        entries.push(Entry::new(format!("interlock_{size}"), "interlock", Some(true), says.clone(), interlock(plan)));
        if readings >= 36 {
            let broken = Plan { defect: Defect::TooEarly, ..plan };
            let says = says + ", a drive set too early";
            entries.push(Entry::new(format!("interlock_early_{size}"), "interlock", Some(false), says, interlock(broken)));
        }
    }
}

fn by_chance(entries: &mut Vec<Entry>) {
    for n in [250, 500, 1000] {
        let c = 2 * n;
        let e = random::three(&mut Draw::new(8000), &[n as i32], c);
        let says = format!("random 3-CNF, {n} existentials, {c} clauses");
        entries.push(Entry::new(format!("random3_e_{n}v_{c}c"), "random3", None, says, e));
        let third = (n / 3) as i32;
        let ae = random::three(&mut Draw::new(8001), &[-third, n as i32 - third], c);
        let says = format!("random 3-CNF, {third} universals in front of {} existentials, {c} clauses", n as i32 - third);
        entries.push(Entry::new(format!("random3_ae_{n}v_{c}c"), "random3", None, says, ae));
    }
}

fn long_runs(entries: &mut Vec<Entry>) {
    for n in [250, 500, 1000] {
        let says = format!("a chain of {n} equal literals");
        entries.push(Entry::new(format!("equalities_{n}"), "equalities", Some(true), says, long::equalities(n, 9000)));
        let says = format!("a chain of {n} units that ends in a clash");
        entries.push(Entry::new(format!("units_{n}"), "units", Some(false), says, long::units(n, true, 9001)));
    }
    for n in [80, 160, 320] {
        let says = format!("a ladder of {n} rungs");
        entries.push(Entry::new(format!("ladder_{n}"), "ladder", Some(true), says, ladder(n, 5, false, 9002)));
    }
}

fn families(entries: &mut Vec<Entry>) {
    // The true ones: as published, or with the universals in front, or without the first clause. The preprocessor gets
    // further with them.
    let mut siblings = Vec::new();
    for t in [63, 127, 255] {
        siblings.push((format!("kbkf_true_{t}"), "kbkf", kbkf::without_first(t)));
    }
    for n in [127, 255, 511] {
        siblings.push((format!("qparity_true_{n}"), "qparity", parity::parity(n, parity::Kind::Plain, true)));
    }
    for n in [85, 170, 341] {
        siblings.push((format!("equality_true_{n}"), "equality", equality::equality(n, equality::Order::UniversalsFirst)));
    }
    for n in [15, 21, 30] {
        siblings.push((format!("completion_true_{n}"), "completion", completion::completion(n, true)));
    }
    for n in [63, 127, 255] {
        siblings.push((format!("impl_{n}"), "impl", impl_chain::impl_chain(n, false)));
    }
    for (name, family, formula) in siblings {
        entries.push(Entry::new(name, family, Some(true), format!("{family}, true"), formula));
    }
    let mut add = |name: String, family, formula| {
        let says = format!("{family}, by its definition");
        entries.push(Entry::new(name, family, Some(false), says, formula));
    };
    for t in [63, 127, 255] {
        add(format!("kbkf_{t}"), "kbkf", kbkf::kbkf(t));
    }
    for t in [12, 25, 50] {
        add(format!("kbkf_ld_{t}"), "kbkf_ld", kbkf::ld(t));
    }
    for t in [51, 102, 204] {
        add(format!("kbkf_qu_{t}"), "kbkf_qu", kbkf::qu(t));
    }
    for n in [127, 255, 511] {
        add(format!("qparity_{n}"), "qparity", parity::parity(n, parity::Kind::Plain, false));
    }
    for n in [64, 128, 256] {
        add(format!("lqparity_{n}"), "lqparity", parity::parity(n, parity::Kind::Long, false));
    }
    for n in [85, 170, 341] {
        add(format!("equality_{n}"), "equality", equality::equality(n, equality::Order::Published));
        add(format!("equality_interleaved_{n}"), "equality", equality::equality(n, equality::Order::Interleaved));
    }
    for n in [15, 21, 30] {
        add(format!("completion_{n}"), "completion", completion::completion(n, false));
    }
    for n in [9, 12, 15] {
        add(format!("pigeonhole_{n}"), "pigeonhole", pigeonhole::pigeonhole(n + 1, n));
    }
    for n in [8, 10, 13] {
        add(format!("ordering_{n}"), "ordering", ordering::ordering(n, true));
    }
    // Renumbered over all 1,023 numbers, so that the order of the clauses and of the prefix is not that of the numbers.
    add("kbkf_255_renumbered".into(), "kbkf", rewrite::renumbered(&kbkf::kbkf(255), 1023, 9100));
    add(
        "qparity_511_renumbered".into(),
        "qparity",
        rewrite::renumbered(&parity::parity(511, parity::Kind::Plain, false), 1023, 9101),
    );
}
