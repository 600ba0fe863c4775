//! Selections of fixed cases, by both evaluations.

use evaluator::samples::selections::SESSION;
use evaluator::samples::{counts, selections, X};
use yurzhoad::{Library, Method, Rule, Selection, Selector};

pub const METHODS: [Method; 2] = [Method::Plain, Method::Snippets];

/// What the functions of a selection say of each other.
pub fn assert_consistent(origin: &str, selection: &Selection, nodes: usize) {
    let marks = selection.marks();
    assert_eq!(marks.len(), nodes, "{origin}");
    assert!(marks.iter().all(|mark| *mark <= 1), "{origin}");
    let listed: Vec<usize> = selection.nodes().collect();
    assert!(listed.is_sorted_by(|a, b| a < b), "{origin}");
    assert_eq!(listed.len(), selection.selected(), "{origin}");
    for node in 0..nodes + 3 {
        let marked = marks.get(node) == Some(&1);
        assert_eq!(selection.contains(node), marked, "{origin}: {node}");
        assert_eq!(listed.contains(&node), marked, "{origin}: {node}");
    }
}

#[test]
fn fixed_rules_select_what_is_written() {
    for method in METHODS {
        let mut selector = Selector::new(method);
        for (name, cases) in selections::GROUPS {
            for case in cases() {
                let library = Library::check(&case.document).expect("accepted");
                let rule = Rule::check(case.rule).expect("accepted");
                let selection = selector.select(&library, &rule);
                let origin = format!("{name}: {}", case.rule);
                assert!(
                    selection.nodes().eq(case.marked.iter().copied()),
                    "{origin}"
                );
                assert_consistent(&origin, &selection, library.nodes());
            }
        }
    }
}

#[test]
fn fixed_rules_have_as_many_snippets_as_written() {
    for method in METHODS {
        let mut selector = Selector::new(method);
        for (name, cases) in counts::GROUPS {
            for case in cases() {
                let library = Library::check(&case.document).expect("accepted");
                let rule = Rule::check(case.rule).expect("accepted");
                let due = match method {
                    Method::Plain => None,
                    Method::Snippets => Some(case.snippets),
                };
                let selection = selector.select(&library, &rule);
                assert_eq!(selection.snippets(), due, "{name}: {}", case.rule);
            }
        }
    }
}

#[test]
fn the_session_is_as_written() {
    let library = Library::check(X).expect("accepted");
    let rule = Rule::check(SESSION).expect("accepted");
    let mut selector = Selector::new(Method::Snippets);
    assert_eq!(selector.method(), Method::Snippets);
    let selection = selector.select(&library, &rule);
    assert_eq!(selection.marks(), [0, 1, 0, 0, 0]);
    assert_eq!(selection.selected(), 1);
    assert_eq!(selection.snippets(), Some(19));
}
