//! The two evaluations as calls: buffers, and the order of all the checks.

use crate::samples::{balanced, document, flat, steps, X};
use evaluator::evaluate::{
    evaluate, evaluate_plain, evaluate_snippets, needed_words, Evaluation, Outcome,
};
use evaluator::{backward, meaning};

const KINDS: [Evaluation; 2] = [Evaluation::Plain, Evaluation::Snippets];

fn assert_refused(document: &[u8], rule: &str, words: usize, marks: usize, due: (u32, usize)) {
    for kind in KINDS {
        let (outcome, handed_back) = evaluate(document, rule.as_bytes(), words, marks, kind);
        let refused = Outcome {
            number: due.0,
            place: due.1,
            selected: 0,
            snippets: 0,
        };
        assert_eq!(outcome, refused, "rule {rule}");
        assert_eq!(handed_back, None);
    }
    let (mut scratch, mut lent) = (vec![7; words], vec![9; marks]);
    let rule = rule.as_bytes();
    let plain = evaluate_plain(document, rule, &mut scratch, &mut lent, meaning::holds);
    let snippets = evaluate_snippets(document, rule, &mut scratch, &mut lent);
    for outcome in [plain, snippets] {
        assert_eq!((outcome.number, outcome.place), due);
        assert_eq!((outcome.selected, outcome.snippets), (0, 0));
    }
    assert_eq!((scratch, lent), (vec![7; words], vec![9; marks]));
}

#[test]
fn the_plain_evaluation_reports_no_snippets() {
    let run = |kind| evaluate(X.as_bytes(), b"(e=e)", usize::MAX, usize::MAX, kind);
    let (plain, plain_marks) = run(Evaluation::Plain);
    let (snippets, snippet_marks) = run(Evaluation::Snippets);
    assert_eq!((plain.selected, plain.snippets), (5, 0));
    assert_eq!((snippets.selected, snippets.snippets), (5, 4));
    assert_eq!(plain_marks, Some(vec![1; 5]));
    assert_eq!(snippet_marks, plain_marks);
}

#[test]
fn scratch_too_short_is_10_and_too_few_marks_11() {
    for nodes in [1, 2, 3, 4, 63, 64, 4_096] {
        let document = flat(nodes);
        let words = needed_words(nodes);
        assert_refused(&document, ":a", words - 1, nodes, (10, 0));
        assert_refused(&document, ":a", 0, 0, (10, 0));
        assert_refused(&document, ":a", words - 1, nodes - 1, (10, 0));
        assert_refused(&document, ":a", words, nodes - 1, (11, 0));
        assert_refused(&document, ":a", words, 0, (11, 0));
    }
    for nodes in [1, 2, 7, 8, 63, 64] {
        for kind in KINDS {
            let words = needed_words(nodes);
            let (outcome, marks) = evaluate(&flat(nodes), b":text", words, nodes, kind);
            assert_eq!((outcome.number, outcome.selected), (0, nodes - 1));
            assert_eq!(marks.map(|marks| marks.len()), Some(nodes));
        }
    }
}

#[test]
fn the_document_is_judged_before_the_rule_and_the_buffers() {
    assert_refused(b"", "", 0, 0, (2, 1));
    assert_refused(&vec![b'x'; 1_048_577], &"x".repeat(2_000), 0, 0, (1, 0));
    assert_refused(b"nodes=0\n", "x", 0, 0, (3, 1));
    assert_refused(b"nodes=1\ndepth=1\n", "x", 0, 0, (4, 2));
    let attribute = ('a', 1, "name", "");
    let twice = document(&[('e', 0, "lib", ""), attribute, attribute]);
    assert_refused(&twice, "x", 0, 0, (14, 12));
    assert_refused(&twice, ":name", 10_000, 10, (14, 12));
}

#[test]
fn the_rule_is_judged_before_the_buffers() {
    let document = X.as_bytes();
    assert_refused(document, &"x".repeat(1_025), 0, 0, (5, 0));
    assert_refused(document, "", 0, 0, (6, 0));
    assert_refused(document, ":a!", 0, 0, (6, 2));
    assert_refused(document, &("!".repeat(32) + ":a"), 0, 0, (7, 32));
    let many = balanced(33);
    assert_refused(document, &many, 0, 0, (8, many.len() - 2));
    assert_refused(document, &format!("({}=e)", steps(15)), 0, 0, (9, 0));
}

#[test]
fn an_accepted_plain_call_leaves_the_buffers_as_written() {
    for nodes in [1, 2, 7, 8, 63, 64] {
        let words = needed_words(nodes);
        for (meaning, longer) in [(meaning::holds as _, 0), (backward::holds as _, 3)] {
            let (mut scratch, mut marks) = (vec![7; words + longer], vec![9; nodes + longer]);
            let document = flat(nodes);
            let outcome = evaluate_plain(&document, b":text", &mut scratch, &mut marks, meaning);
            let due = Outcome {
                number: 0,
                place: 0,
                selected: nodes - 1,
                snippets: 0,
            };
            assert_eq!(outcome, due);
            assert_eq!(scratch, [vec![0; words], vec![7; longer]].concat());
            let marked = [vec![0], vec![1; nodes - 1], vec![9; longer]];
            assert_eq!(marks, marked.concat());
        }
    }
}

#[test]
fn an_accepted_snippet_call_leaves_the_buffers_as_written() {
    for longer in [0, 3] {
        let words = needed_words(5);
        let (mut scratch, mut marks) = (vec![7; words + longer], vec![9; 5 + longer]);
        let outcome = evaluate_snippets(X.as_bytes(), b"(r=e)", &mut scratch, &mut marks);
        let (due, due_marks) = evaluate(X.as_bytes(), b"(r=e)", words, 5, Evaluation::Snippets);
        assert_eq!(outcome, due);
        assert!(outcome.snippets > 0);
        assert_eq!(scratch, [vec![0; words], vec![7; longer]].concat());
        let due_marks = due_marks.expect("an accepted call");
        assert_eq!(marks, [due_marks, vec![9; longer]].concat());
    }
}
