//! Times the proved checks of documents and rules, both evaluations, and what
//! the crate `yurzhoad` costs around them.
//!
//! Run it in this workspace, after `rt lib` in crates/exports, on a machine
//! that does nothing else:
//!
//! ```text
//! cargo run --release --offline -p bench
//! ```
//!
//! With `documents`, `rules`, `evaluations`, `counts`, `values`, `groups`, `lists` or
//! `wrapper` behind `--` only these are timed. `peers` is timed only if it is named:
//! it is about other engines, which have to be installed, and takes minutes.
//!
//! The workspace's release profile has overflow checks and debug assertions;
//! it switches them off for this package, whose scans and whose evaluation are
//! measured. The proved functions come compiled out of the archive.
//!
//! Nothing is asserted about time: a test that fails when the machine is busy
//! tells nothing about the functions.

mod amounts;
mod attributes;
mod counts;
mod documents;
mod evaluations;
mod groups;
mod libraries;
mod peers;
mod rule_shapes;
mod rules;
mod scan;
mod shapes;
mod straightforward;
mod texts;
mod timing;
mod values;
mod wrapper;
mod xml;
mod xpath;

/// A name, and what prints the times.
type Part = (&'static str, fn());

/// What is timed if nothing is named.
const PARTS: [Part; 8] = [
    ("documents", documents::print),
    ("rules", rules::print),
    ("evaluations", evaluations::print),
    ("counts", counts::print),
    ("values", values::print),
    ("groups", groups::print),
    ("lists", groups::print_lists),
    ("wrapper", wrapper::print),
];

/// What is timed only if it is named.
const BY_NAME: [Part; 1] = [("peers", peers::print)];

fn main() {
    let asked: Vec<String> = std::env::args().skip(1).collect();
    for name in &asked {
        let known = PARTS.iter().chain(&BY_NAME).any(|(part, _)| part == name);
        assert!(known, "there is nothing named {name} to be timed");
    }
    println!(
        "Each number: median of {} runs, or fewer where so written (fastest run). GB/s are 10^9 bytes a second.",
        timing::RUNS
    );
    let named = |(name, _): &&Part| asked.iter().any(|asked| asked == name);
    let chosen: Vec<&Part> = match asked.is_empty() {
        true => PARTS.iter().collect(),
        false => PARTS.iter().chain(&BY_NAME).filter(named).collect(),
    };
    for (name, print) in chosen {
        println!("\n{name}");
        print();
    }
}
