//! Shorthands for accepted evaluations, beside the shared documents and rules.

pub use evaluator::samples::{balanced, document, flat, steps, X};

use evaluator::evaluate::{evaluate, needed_words, Evaluation, Outcome};

/// An accepted snippet evaluation with buffers just large enough: the record
/// and the numbers of the marked nodes.
pub fn run(document: &[u8], rule: &str) -> (Outcome, Vec<usize>) {
    let nodes = evaluator::document::check(document).nodes;
    let words = needed_words(nodes);
    let (outcome, marks) = evaluate(
        document,
        rule.as_bytes(),
        words,
        nodes,
        Evaluation::Snippets,
    );
    assert_eq!((outcome.number, outcome.place), (0, 0), "rule {rule}");
    let marks = marks.expect("an accepted call has marks");
    let marked = (0..nodes).filter(|v| marks[*v] == 1).collect();
    (outcome, marked)
}
