//! Tables of ratios: a line for each library, a column for each peer.

use super::cases::Case;
use super::engines::Engine;
use super::process::Silence;
use super::LIMIT;
use crate::timing::{Times, RUNS};

/// What came of a peer in one case.
pub type Outcome = Result<Times, Silence>;

/// One case: how many nodes are selected, our times, and what came of each peer.
pub struct Row {
    pub selected: usize,
    pub ours: Times,
    pub peers: Vec<Outcome>,
}

/// A column is so wide.
const WIDTH: usize = 18;

pub fn print_heading(engines: &[Engine]) {
    print!(
        "  {:>5} {:12}{:>6}{:>9}",
        "nodes", "library", "names", "selected"
    );
    print!("{:>WIDTH$}", "ours, ms");
    for engine in engines {
        print!("{:>WIDTH$}", engine.name);
    }
    println!();
}

/// Ours in milliseconds, and how many times as long each peer takes; then the numbers
/// of runs, where they are fewer.
pub fn print_row(case: &Case, row: &Row) {
    let nodes = case.library.nodes.len();
    print!(
        "  {nodes:>5} {:12}{:>6}{:>9}",
        case.name, case.names, row.selected
    );
    let ours = format!(
        "{:.3} ({:.3})",
        row.ours.median * 1e3,
        row.ours.fastest * 1e3
    );
    print!("{ours:>WIDTH$}");
    for outcome in &row.peers {
        print!("{:>WIDTH$}", cell(outcome, &row.ours));
    }
    println!("{}", fewer_runs(row));
}

/// How many times as long a peer takes, by medians (and by fastest runs); at least so
/// many times where it was too slow.
fn cell(outcome: &Outcome, ours: &Times) -> String {
    match outcome {
        Ok(theirs) => format!(
            "{} ({})",
            rounded(theirs.median / ours.median),
            rounded(theirs.fastest / ours.fastest)
        ),
        Err(Silence::TooSlow) => {
            format!("> {}", rounded(LIMIT.as_secs_f64() / ours.median))
        }
        Err(Silence::Ended) => "ended".to_string(),
    }
}

/// Three digits, and more only before the point.
fn rounded(ratio: f64) -> String {
    match ratio {
        small if small < 10.0 => format!("{small:.2}"),
        middle if middle < 100.0 => format!("{middle:.1}"),
        large => format!("{large:.0}"),
    }
}

/// How often each was run, ours first, if one of them was run less often than others.
fn fewer_runs(row: &Row) -> String {
    let runs = |outcome: &Outcome| outcome.as_ref().map_or(0, |times| times.runs);
    let peers = row.peers.iter().map(runs);
    let all: Vec<usize> = [row.ours.runs].into_iter().chain(peers).collect();
    match all.iter().all(|runs| *runs == RUNS) {
        true => String::new(),
        false => format!("   runs {all:?}"),
    }
}

#[cfg(test)]
mod tests {
    use super::{cell, fewer_runs, Row, Silence, Times, RUNS};

    fn times(median: f64, fastest: f64, runs: usize) -> Times {
        Times {
            median,
            fastest,
            runs,
        }
    }

    #[test]
    fn a_cell_has_the_ratio() {
        let ours = times(0.002, 0.001, RUNS);
        let timed = |median, fastest| cell(&Ok(times(median, fastest, 3)), &ours);
        assert_eq!(timed(0.003, 0.002), "1.50 (2.00)");
        assert_eq!(timed(0.05, 1.25), "25.0 (1250)");
        let slow = cell(&Err(Silence::TooSlow), &ours);
        assert_eq!(slow, "> 5000");
        assert_eq!(cell(&Err(Silence::Ended), &ours), "ended");
    }

    #[test]
    fn fewer_runs_are_told() {
        let row = |runs| Row {
            selected: 0,
            ours: times(1.0, 1.0, RUNS),
            peers: vec![Ok(times(1.0, 1.0, runs))],
        };
        assert_eq!(fewer_runs(&row(RUNS)), "");
        assert_eq!(fewer_runs(&row(5)), format!("   runs [{RUNS}, 5]"));
    }
}
