//! A selector that is kept, over libraries large and small, against calls of
//! the archive with new buffers and against the evaluator.

use crate::selections::{assert_consistent, METHODS};
use evaluator::document::{spell, NODE_LIMIT};
use evaluator::evaluate::{self, evaluate};
use evaluator::random::{library, rule_about, Random};
use evaluator::samples::libraries::formulary;
use evaluator::samples::{flat, X};
use evaluator::tree::Tree;
use yurzhoad::archive::{self, Evaluation};
use yurzhoad::limits::needed_words;
use yurzhoad::{Library, Method, Rule, Selector};

/// What the archive makes of the call with new buffers: the record and the
/// marks.
fn fresh(method: Method, document: &[u8], rule: &[u8], nodes: usize) -> (Evaluation, Vec<u8>) {
    let (mut scratch, mut marks) = (vec![0xA5A5; needed_words(nodes)], vec![0xA5; nodes]);
    let evaluate = match method {
        Method::Plain => archive::evaluate_plain,
        Method::Snippets => archive::evaluate_snippets,
    };
    let record = evaluate(document, rule, &mut scratch, &mut marks);
    assert_eq!(record.number, 0);
    (record, marks)
}

/// Asserts that a kept selector does what a fresh call does; hands back the
/// record.
fn assert_as_fresh(
    selector: &mut Selector,
    origin: &str,
    document: &[u8],
    rule: &[u8],
) -> Evaluation {
    let checked = Library::check(document).expect("an accepted document");
    let nodes = checked.nodes();
    let method = selector.method();
    let (record, marks) = fresh(method, document, rule, nodes);
    let room = selector.room();
    let rule = Rule::check(rule).expect("an accepted rule");
    let selection = selector.select(&checked, &rule);
    assert_consistent(origin, &selection, nodes);
    // The plain evaluation counts no snippets, so the record tells which of the
    // two was made.
    assert_eq!(selection.evaluation(), record, "{origin}");
    assert_eq!(selection.selected(), record.selected, "{origin}");
    assert_eq!(selection.marks(), marks, "{origin}");
    let due = (method == Method::Snippets).then_some(record.snippets);
    assert_eq!(selection.snippets(), due, "{origin}");
    assert_eq!(selector.room(), room.max(nodes), "{origin}");
    record
}

/// And what the evaluator does, which is meant for small libraries.
fn assert_as_evaluator(selector: &mut Selector, origin: &str, document: &[u8], rule: &[u8]) {
    let library = Library::check(document).expect("an accepted document");
    let (words, nodes) = (needed_words(library.nodes()), library.nodes());
    let evaluation = match selector.method() {
        Method::Plain => evaluate::Evaluation::Plain,
        Method::Snippets => evaluate::Evaluation::Snippets,
    };
    let (outcome, marks) = evaluate(document, rule, words, nodes, evaluation);
    let rule = Rule::check(rule).expect("an accepted rule");
    let selection = selector.select(&library, &rule);
    assert_eq!(Some(selection.marks().to_vec()), marks, "{origin}");
    assert_eq!(selection.selected(), outcome.selected, "{origin}");
    assert_eq!(
        selection.snippets().unwrap_or(0),
        outcome.snippets,
        "{origin}"
    );
}

#[test]
fn random_pairs_are_selected_as_by_fresh_calls() {
    let (mut some, mut counted) = (0, 0);
    for method in METHODS {
        let mut selector = Selector::new(method);
        for seed in 4_300_000..4_301_500 {
            let random = &mut Random::new(seed);
            // Large and small in turn.
            let most = *random.pick(&[8, 30, 30, 200]);
            let nodes = 1 + random.below(most);
            let library = library(random, nodes);
            let values = Tree::of(&library).values;
            let size = 2 + random.below(20);
            let rule = rule_about(random, size, &values).spell();
            let (origin, document) = (format!("seed {seed}"), spell(&library));
            let record = assert_as_fresh(&mut selector, &origin, &document, &rule);
            some += usize::from(record.selected > 0 && record.selected < nodes);
            counted += usize::from(record.snippets > 0);
            if nodes <= 30 {
                assert_as_evaluator(&mut selector, &origin, &document, &rule);
            }
        }
        assert!(selector.room() > 150, "{}", selector.room());
    }
    assert!(some > 600, "{some} selected some nodes and not all");
    assert!(counted > 200, "{counted} had snippets");
}

#[test]
fn large_then_small_then_large() {
    let rules = [":drug", "!(.l[:name]=.*+lr[:name])", "(l=r)"];
    for method in METHODS {
        let mut selector = Selector::new(method);
        for nodes in [700, 1, 64, 63, 700, 5, NODE_LIMIT, 2, NODE_LIMIT] {
            let document = spell(&formulary(nodes));
            for rule in rules {
                let origin = format!("{nodes} nodes, {rule}");
                assert_as_fresh(&mut selector, &origin, &document, rule.as_bytes());
            }
        }
        assert_eq!(selector.room(), NODE_LIMIT);
    }
}

#[test]
fn buffers_are_used_again() {
    let (large, small) = (flat(50), flat(20));
    let large = Library::check(&large).expect("accepted");
    let small = Library::check(&small).expect("accepted");
    let rule = Rule::check(":text").expect("accepted");
    let mut selector = Selector::new(Method::Plain);
    assert_eq!(selector.room(), 0);
    let first = selector.select(&large, &rule).marks().as_ptr();
    for library in [&small, &large, &small] {
        let again = selector.select(library, &rule);
        assert_eq!(again.selected(), library.nodes() - 1);
        assert_eq!(again.marks().as_ptr(), first);
    }
    assert_eq!(selector.room(), 50);
}

#[test]
fn room_can_be_made_before() {
    let library = Library::check(X).expect("accepted");
    let rule = Rule::check(":drug").expect("accepted");
    let mut selector = Selector::new(Method::Snippets);
    selector.reserve(NODE_LIMIT);
    assert_eq!(selector.room(), NODE_LIMIT);
    // It never shrinks.
    selector.reserve(1);
    assert_eq!(selector.select(&library, &rule).marks(), [0, 1, 0, 1, 0]);
    assert_eq!(selector.room(), NODE_LIMIT);
    let due = "Selector { method: Snippets, room: 4096 }";
    assert_eq!(format!("{selector:?}"), due);
}

#[test]
fn selectors_work_in_several_threads() {
    let library = Library::check(X).expect("accepted");
    let rule = Rule::check("(.l[:name]=..r*rl)").expect("accepted");
    std::thread::scope(|scope| {
        let run = || {
            let mut selector = Selector::new(Method::Snippets);
            let counts = (0..200).map(|_| selector.select(&library, &rule).snippets());
            counts.filter(|count| *count == Some(19)).count()
        };
        let threads: Vec<_> = (0..4).map(|_| scope.spawn(run)).collect();
        for thread in threads {
            assert_eq!(thread.join().expect("no panic"), 200);
        }
    });
}
