//! The cases of document 01 on X, its session, where a reading slips, and what
//! each construct means; and the same inside larger buffers.

use crate::evaluation_agreement::{assert_marked, called, needed, Buffers, Length, EVALUATIONS};
use evaluator::document::NODE_LIMIT;
use evaluator::evaluate::{Evaluation, Outcome};
use evaluator::samples::selections::{CASES_ON_X, GROUPS, SESSION};
use evaluator::samples::X;
use yurzhoad::limits::needed_words;

/// Buffers that are accepted, each with something else in it.
fn accepted_buffers(seed: u64) -> [Buffers; 3] {
    let lent = |words, marks| Buffers { words, marks, seed };
    [
        needed(seed),
        lent(Length::Longer(1), Length::Needed),
        lent(Length::Longer(300), Length::Longer(20)),
    ]
}

#[test]
fn every_fixed_selection_marks_what_is_due() {
    let mut seed = 0;
    for (name, cases) in GROUPS {
        for case in cases() {
            let (document, rule) = (&case.document, case.rule.as_bytes());
            for buffers in accepted_buffers(seed) {
                assert_marked(name, document, rule, buffers, case.marked);
                seed += 1;
            }
        }
    }
}

#[test]
fn the_session_selects_node_1_whatever_the_buffers_held() {
    for (evaluation, snippets) in [(Evaluation::Plain, 0), (Evaluation::Snippets, 19)] {
        for fill in [0, 1, 2, 0xFF] {
            let mut scratch = vec![u16::from(fill) * 0x101; needed_words(5)];
            let mut marks = [fill; 5];
            let (document, rule) = (X.as_bytes(), SESSION.as_bytes());
            let outcome = called(evaluation, document, rule, &mut scratch, &mut marks);
            let due = Outcome {
                number: 0,
                place: 0,
                selected: 1,
                snippets,
            };
            assert_eq!(outcome, due);
            assert_eq!(marks, [0, 1, 0, 0, 0]);
            assert!(scratch.iter().all(|word| *word == 0));
        }
    }
}

#[test]
fn one_rule_after_the_other_in_the_same_buffers() {
    // What an accepted call leaves behind is lent to the next as it is.
    let mut scratch = vec![0xABCD; needed_words(5) + 3];
    let mut marks = [7; 8];
    for (rule, marked) in CASES_ON_X {
        for evaluation in EVALUATIONS {
            let (document, bytes) = (X.as_bytes(), rule.as_bytes());
            let outcome = called(evaluation, document, bytes, &mut scratch, &mut marks);
            assert_eq!((outcome.number, outcome.selected), (0, marked.len()));
            for (node, mark) in marks[..5].iter().enumerate() {
                assert_eq!(*mark == 1, marked.contains(&node), "{rule} at {node}");
            }
            assert_eq!(marks[5..], [7; 3]);
            let (cleared, later) = scratch.split_at(needed_words(5));
            assert!(cleared.iter().all(|word| *word == 0));
            assert_eq!(later, [0xABCD; 3]);
        }
    }
}

#[test]
fn a_document_and_a_rule_inside_larger_buffers() {
    // Reading behind the end or before the start would find more to read.
    let documents = [X, X, X].concat();
    let document = &documents.as_bytes()[X.len()..2 * X.len()];
    for (rule, marked) in CASES_ON_X {
        for fill in ["!", ":a", "e)", "\"", "-0"] {
            let rules = [fill, rule, fill].concat();
            let inside = &rules.as_bytes()[fill.len()..fill.len() + rule.len()];
            assert_marked("inside a buffer", document, inside, needed(0), marked);
        }
    }
}

#[test]
fn needed_words_are_as_written() {
    assert_eq!(needed_words(1), 192);
    assert_eq!(needed_words(63), 32_256);
    assert_eq!(needed_words(64), 36_864);
    for nodes in 1..=NODE_LIMIT {
        let due = evaluator::evaluate::needed_words(nodes);
        assert_eq!(needed_words(nodes), due, "{nodes} nodes");
    }
}
