//! A selector by lists of values: what is written, refusals, and buffers that are
//! used again between other calls.

use crate::selections::{assert_consistent, METHODS};
use evaluator::document::{spell, NODE_LIMIT};
use evaluator::random::{equality, library, some_values, Random};
use evaluator::samples::libraries::catalogue;
use evaluator::samples::{value_lists, X};
use evaluator::tree::Tree;
use yurzhoad::archive::evaluate_values;
use yurzhoad::limits::needed_words;
use yurzhoad::{Ground, Library, Method, Rule, Selector};

#[test]
fn fixed_lists_select_what_is_written() {
    for method in METHODS {
        let mut selector = Selector::new(method);
        for (name, cases) in value_lists::GROUPS {
            for case in cases() {
                let library = Library::check(&case.document).expect("accepted");
                let rule = Rule::check(case.rule).expect("accepted");
                let selected = selector.select_values(&library, &rule, case.values);
                let selection = selected.expect("an equality and nodes");
                let origin = format!("{name}: {} by {:?}", case.rule, case.values);
                let marked = case.marked.iter().copied();
                assert!(selection.nodes().eq(marked), "{origin}");
                // They are counted whatever the method.
                assert_eq!(selection.snippets(), Some(case.snippets), "{origin}");
                assert_consistent(&origin, &selection, library.nodes());
            }
        }
        assert_eq!(selector.method(), method);
    }
}

#[test]
fn other_rules_and_other_nodes_are_refused() {
    let library = Library::check(X).expect("accepted");
    let mut selector = Selector::new(Method::Snippets);
    for (rule, values, due) in [
        (":drug", &[0][..], Ground::OtherComparison),
        ("(e=\"\")", &[], Ground::OtherComparison),
        ("#1[(e=e)]", &[9], Ground::OtherComparison),
        ("(e=e)", &[5], Ground::NoSuchNode),
        ("(e=e)", &[0, 1, 65_535], Ground::NoSuchNode),
    ] {
        let rule = Rule::check(rule).expect("accepted");
        let refused = selector.select_values(&library, &rule, values);
        let refusal = refused.expect_err("no such call is accepted");
        assert_eq!((refusal.ground(), refusal.place()), (due, 0), "{rule:?}");
    }
    // What was refused is forgotten.
    let rule = Rule::check("(e=e)").expect("accepted");
    let all = selector
        .select_values(&library, &rule, &[4, 0])
        .expect("accepted");
    assert_eq!((all.selected(), all.snippets()), (5, Some(4)));
}

/// A list of every value selects as `select` does, and in between a part of them
/// as a call with new buffers does.
#[test]
fn random_lists_between_other_calls() {
    let mut selector = Selector::new(Method::Snippets);
    let (mut part, mut whole) = (0, 0);
    for seed in 4_310_000..4_311_000 {
        let random = &mut Random::new(seed);
        let most = *random.pick(&[8, 30, 200]);
        let nodes = 1 + random.below(most);
        let drawn = library(random, nodes);
        let tree = Tree::of(&drawn);
        let rule = equality(random, 14, &tree.values).spell();
        let list = some_values(random, &tree);
        let every: Vec<u16> = (0..nodes as u16).rev().collect();
        let document = spell(&drawn);
        let (mut scratch, mut marks) = (vec![0xA5A5; needed_words(nodes)], vec![0xA5; nodes]);
        let due = evaluate_values(&document, &rule, &list, &mut scratch, &mut marks);
        let library = Library::check(&document).expect("accepted");
        let rule = Rule::check(&rule).expect("accepted");
        let selection = selector.select(&library, &rule);
        let (all, all_marks) = (selection.evaluation(), selection.marks().to_vec());
        let selection = selector
            .select_values(&library, &rule, &list)
            .expect("accepted");
        assert_eq!(selection.evaluation(), due, "seed {seed}");
        assert_eq!(selection.marks(), marks, "seed {seed}");
        assert_consistent("a part", &selection, nodes);
        let selection = selector
            .select_values(&library, &rule, &every)
            .expect("accepted");
        assert_eq!(selection.evaluation(), all, "seed {seed}");
        assert_eq!(selection.marks(), all_marks, "seed {seed}");
        part += usize::from(due.snippets > 0 && due.snippets < all.snippets);
        whole += usize::from(all.snippets > 0);
    }
    println!("{whole} had snippets, {part} fewer by a part");
    assert!(whole > 500 && part > 150, "{whole}, {part}");
}

#[test]
fn the_most_nodes_by_their_own_numbers() {
    let document = spell(&catalogue(NODE_LIMIT));
    let library = Library::check(&document).expect("accepted");
    let rule = Rule::check("(e=.r*r)").expect("accepted");
    let mut selector = Selector::new(Method::Snippets);
    let last = NODE_LIMIT as u16 - 1;
    let selection = selector
        .select_values(&library, &rule, &[last])
        .expect("accepted");
    assert_eq!((selection.selected(), selection.snippets()), (0, Some(0)));
    let refused = selector.select_values(&library, &rule, &[last + 1]);
    assert_eq!(refused.expect_err("none").ground(), Ground::NoSuchNode);
}
