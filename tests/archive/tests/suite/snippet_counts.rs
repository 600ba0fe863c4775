//! Counts of snippets: those of document 01, those worked out by hand, and on
//! long rows and chains those that a formula gives.

use std::collections::BTreeSet;

use crate::evaluation_agreement::{assert_agreement, called, needed, BY_DEFINITION};
use evaluator::document::{self, spell, NODE_LIMIT};
use evaluator::evaluate::{most_snippets, Evaluation, Outcome};
use evaluator::reader;
use evaluator::samples::counts::{row, EVERYWHERE, GROUPS, PAIRS};
use evaluator::samples::libraries::chain;
use yurzhoad::limits::needed_words;

fn accepted(origin: &str, outcome: Outcome) -> usize {
    assert_eq!(outcome.number, 0, "{origin}");
    outcome.snippets
}

/// What the archive counts, whatever the nodes; the evaluator is not asked.
fn count(origin: &str, document: &[u8], rule: &str) -> usize {
    let nodes = document::check(document).nodes;
    let (mut scratch, mut marks) = (vec![1; needed_words(nodes)], vec![2; nodes]);
    let (rule, evaluation) = (rule.as_bytes(), Evaluation::Snippets);
    let outcome = called(evaluation, document, rule, &mut scratch, &mut marks);
    accepted(origin, outcome)
}

#[test]
fn every_fixed_count_is_due() {
    for (name, cases) in GROUPS {
        for case in cases() {
            let outcome = assert_agreement(name, &case.document, case.rule.as_bytes(), needed(1));
            assert_eq!(
                accepted(name, outcome),
                case.snippets,
                "{name}: {}",
                case.rule
            );
        }
    }
}

/// A stretch of a row: its power and the node where it begins.
pub type Stretch = (u32, usize);

/// The stretches that are yielded by two nodes of a row: of the largest power one
/// from each end, of each smaller power both halves.
pub fn stretches(from: usize, to: usize) -> BTreeSet<Stretch> {
    let power = (to - from).ilog2();
    let mut begins = BTreeSet::from([from, to - (1 << power)]);
    let mut all: BTreeSet<Stretch> = begins.iter().map(|begin| (power, *begin)).collect();
    for power in (0..power).rev() {
        begins = begins
            .iter()
            .flat_map(|begin| [*begin, begin + (1 << power)])
            .collect();
        all.extend(begins.iter().map(|begin| (power, *begin)));
    }
    all
}

#[test]
fn two_equal_values_at_the_ends_of_a_row() {
    let lengths = (1..70).chain((6..12).flat_map(|k| [(1 << k) - 1, 1 << k, (1 << k) + 1]));
    for length in lengths.chain([NODE_LIMIT - 2]) {
        let mut values: Vec<String> = (0..=length).map(|number| format!("v{number}")).collect();
        values[length] = values[0].clone();
        let origin = format!("{length} edges");
        let due = PAIRS * stretches(1, 1 + length).len();
        assert_eq!(count(&origin, &row(&values), EVERYWHERE), due, "{origin}");
    }
}

#[test]
fn one_value_all_along_a_chain() {
    // All elements have the value of the one text, and each stretch one edge.
    for nodes in (1..70).chain([255, 256, 257, 1_023, 1_024, NODE_LIMIT]) {
        let (origin, document) = (format!("{nodes} nodes"), spell(&chain(nodes)));
        let due = PAIRS * (nodes - 1);
        assert_eq!(count(&origin, &document, "(*+lL=*+lL)"), due, "{origin}");
    }
}

#[test]
fn no_rule_counts_more_than_its_bound() {
    // The most steps, all of them last and leading everywhere: 8 positions of
    // each path at both ends of every stretch, one long row of many values.
    let many = "*+l+r+L+R+l+rR";
    let rule = format!("({many}={many})");
    let values: Vec<String> = (0..1_000)
        .map(|number| format!("v{}", number % 37))
        .collect();
    for nodes in [2, BY_DEFINITION, 100, 1_000] {
        let document = row(&values[1..nodes]);
        let outcome = assert_agreement("the most", &document, rule.as_bytes(), needed(2));
        let most = most_snippets(nodes, &reader::read(rule.as_bytes()));
        assert!(outcome.snippets <= most, "{} of {most}", outcome.snippets);
        // Of the positions that the bound allows for, all but few are there.
        assert!(
            nodes < 100 || outcome.snippets > most / 4,
            "{} of {most}",
            outcome.snippets
        );
    }
}
