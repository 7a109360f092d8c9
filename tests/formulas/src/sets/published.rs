//! The published families in set `solver`, up to the sizes that the second solver decides at once.

use crate::families::{completion, equality, impl_chain, kbkf, ordering, parity, pigeonhole};
use crate::formula::Formula;

/// The published families, with a true sibling where there is a plain one.
pub fn published() -> Vec<(String, &'static str, bool, Formula)> {
    let mut all = Vec::new();
    for t in 1..=13 {
        all.push((format!("kbkf_{t}"), "kbkf", false, kbkf::kbkf(t)));
        all.push((format!("kbkf_true_{t}"), "kbkf", true, kbkf::without_first(t)));
    }
    for t in 1..=10 {
        all.push((format!("kbkf_ld_{t}"), "kbkf_ld", false, kbkf::ld(t)));
        all.push((format!("kbkf_qu_{t}"), "kbkf_qu", false, kbkf::qu(t)));
    }
    for (kind, family) in
        [(parity::Kind::Plain, "qparity"), (parity::Kind::Long, "lqparity"), (parity::Kind::Doubled, "quparity")]
    {
        for n in 2..=if kind == parity::Kind::Plain { 13 } else { 11 } {
            all.push((format!("{family}_{n}"), family, false, parity::parity(n, kind, false)));
            all.push((format!("{family}_true_{n}"), family, true, parity::parity(n, kind, true)));
        }
    }
    for n in 1..=13 {
        all.push((format!("equality_{n}"), "equality", false, equality::equality(n, equality::Order::Published)));
        all.push((format!("equality_interleaved_{n}"), "equality", false, equality::equality(n, equality::Order::Interleaved)));
        all.push((format!("equality_true_{n}"), "equality", true, equality::equality(n, equality::Order::UniversalsFirst)));
    }
    for n in 1..=5 {
        all.push((format!("completion_{n}"), "completion", false, completion::completion(n, false)));
        all.push((format!("completion_true_{n}"), "completion", true, completion::completion(n, true)));
    }
    for n in 1..=6 {
        all.push((format!("pigeonhole_{n}"), "pigeonhole", false, pigeonhole::pigeonhole(n + 1, n)));
        all.push((format!("pigeonhole_true_{n}"), "pigeonhole", true, pigeonhole::pigeonhole(n, n)));
    }
    for n in 2..=8 {
        all.push((format!("ordering_{n}"), "ordering", false, ordering::ordering(n, true)));
        all.push((format!("ordering_true_{n}"), "ordering", true, ordering::ordering(n, false)));
    }
    for n in 1..=12 {
        all.push((format!("impl_{n}"), "impl", true, impl_chain::impl_chain(n, false)));
        all.push((format!("impl_broken_{n}"), "impl", false, impl_chain::impl_chain(n, true)));
    }
    all
}
