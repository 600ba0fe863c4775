//! Request (h) of document 02: how the n of a count is spelled, and at how many
//! nodes it holds.

use std::collections::BTreeSet;

use evaluator::document::{self, spell};
use evaluator::evaluate::{evaluate, needed_words, Evaluation};
use evaluator::grammar::COUNT_LIMIT;
use evaluator::random::{branching_library, library, rule_about, Random};
use evaluator::rule::{counts, equalities, Operand, Path, Sign, Test};
use evaluator::rule_check::check;
use evaluator::samples::at_least::every_number;
use evaluator::samples::document;
use evaluator::tree::Tree;
use evaluator::{backward, meaning, reader};

#[test]
fn every_text_of_up_to_five_digits_is_a_number_just_if_it_is_spelled_as_one() {
    let cases = every_number();
    assert_eq!(cases.len(), 111_111);
    let mut accepted = 0;
    for case in cases {
        assert_eq!(check(&case.rule), case.due, "{}", case.rule.escape_ascii());
        accepted += usize::from(case.due.number == 0);
    }
    assert_eq!(accepted, COUNT_LIMIT + 1);
}

/// The nodes that a path reaches from some nodes, one step after the other and
/// without any relation. Where the tests in brackets hold is asked of `meaning`.
fn reached(tree: &Tree, path: &Path, from: &BTreeSet<usize>) -> BTreeSet<usize> {
    let each = |step: &dyn Fn(usize) -> Option<usize>| -> BTreeSet<usize> {
        from.iter().filter_map(|v| step(*v)).collect()
    };
    match path {
        Path::Empty => from.clone(),
        Path::Left => each(&|v| tree.left[v]),
        Path::Right => each(&|v| tree.right[v]),
        Path::FromLeft => each(&|v| tree.parent_of_left(v)),
        Path::FromRight => each(&|v| tree.parent_of_right(v)),
        Path::Stay(test) => {
            let holds = meaning::holds(tree, test);
            each(&|v| holds[v].then_some(v))
        }
        Path::Then(a, b) => reached(tree, b, &reached(tree, a, from)),
        Path::Either(a, b) => &reached(tree, a, from) | &reached(tree, b, from),
        Path::Repeat(a) => {
            let mut all = from.clone();
            loop {
                let more = &all | &reached(tree, a, &all);
                if more == all {
                    return all;
                }
                all = more;
            }
        }
    }
}

/// Asserts by both meanings where the path reaches at least so many nodes, for
/// each number, and returns the different numbers of nodes that it reaches.
fn compare_counts(seed: u64, tree: &Tree, path: &Path) -> BTreeSet<usize> {
    let from = |v: usize| reached(tree, path, &BTreeSet::from([v])).len();
    let numbers: Vec<usize> = (0..tree.size()).map(from).collect();
    for n in (0..=tree.size() + 1).chain([COUNT_LIMIT]) {
        let due: Vec<bool> = numbers.iter().map(|number| *number >= n).collect();
        let test = Test::AtLeast(n, path.clone());
        let shown = test.spell().escape_ascii().to_string();
        assert_eq!(meaning::holds(tree, &test), due, "seed {seed}: {shown}");
        assert_eq!(backward::holds(tree, &test), due, "seed {seed}: {shown}");
    }
    numbers.into_iter().collect()
}

#[test]
fn a_count_holds_where_so_many_nodes_are_reached() {
    let (mut compared, mut several, mut many) = (0, 0, 0);
    for seed in 0..3_000 {
        let random = &mut Random::new(seed);
        let nodes = 1 + random.below(20);
        let tree = Tree::of(&match random.percent(50) {
            true => library(random, nodes),
            false => branching_library(random, nodes),
        });
        let rule = rule_about(random, 16, &tree.values);
        for (_, path) in counts(&rule).into_iter().filter_map(Test::counted) {
            let numbers = compare_counts(seed, &tree, path);
            compared += 1;
            several += usize::from(numbers.len() >= 3);
            many += usize::from(numbers.last() >= Some(&5));
        }
    }
    println!("{compared} paths, {several} reach three numbers of nodes, {many} reach five");
    assert!(
        compared > 1_200 && several > 400 && many > 200,
        "{compared}, {several}, {many}"
    );
}

/// A node that is reached has its own value: so the equality of a path with
/// itself holds where the path reaches a node at all.
#[test]
fn at_least_one_is_what_a_comparison_asks_for() {
    let mut some = 0;
    for seed in 0..3_000 {
        let random = &mut Random::new(seed);
        let nodes = 1 + random.below(20);
        let tree = Tree::of(&library(random, nodes));
        let rule = rule_about(random, 12, &tree.values);
        for (p, r) in equalities(&rule) {
            for path in [p, r] {
                let one = Test::AtLeast(1, path.clone());
                let operand = Operand::Path(path.clone());
                let compared = Test::Compare(path.clone(), Sign::Equal, operand);
                let holds = meaning::holds(&tree, &one);
                assert_eq!(holds, meaning::holds(&tree, &compared), "seed {seed}");
                some += usize::from(holds.contains(&true) && holds.contains(&false));
            }
        }
    }
    assert!(some > 300, "{some} held at some nodes");
}

/// "It yields no snippets": the evaluation counts those of the equalities inside
/// and no others.
#[test]
fn snippets_inside_a_count_are_those_of_the_bracket() {
    let (mut with, mut without) = (0, 0);
    for seed in 0..1_000 {
        let random = &mut Random::new(seed);
        let nodes = 1 + random.below(12);
        let library = library(random, nodes);
        let rule = rule_about(random, 10, &Tree::of(&library).values);
        let document = spell(&library);
        let count = |rule: &Test| {
            let kind = Evaluation::Snippets;
            let (outcome, _) = evaluate(&document, &rule.spell(), needed_words(nodes), nodes, kind);
            (outcome.number == 0).then_some(outcome.snippets)
        };
        // Around a bracket there may be too much of something then.
        let bracket = Path::Stay(Box::new(rule.clone()));
        let around = Test::AtLeast(random.below(3), bracket);
        if let Some(snippets) = count(&around) {
            assert_eq!(Some(snippets), count(&rule), "seed {seed}");
            with += usize::from(snippets > 0);
            without += usize::from(snippets == 0);
        }
    }
    assert!(with > 200 && without > 200, "{with}, {without}");
}

/// Paths that lead to all nodes, on the most of them: deep, wide and between.
#[test]
fn the_most_nodes_are_counted() {
    let most = COUNT_LIMIT;
    let deep: Vec<_> = (0..most).map(|depth| ('e', depth, "a", "")).collect();
    let mut wide = vec![('e', 1, "a", ""); most];
    wide[0].1 = 0;
    let rows = |v: usize| ('e', [1, 2, 2][v % 3].min(v), "a", "");
    let between: Vec<_> = (0..most).map(rows).collect();
    for rows in [deep, wide, between] {
        let library = document::read(&document(&rows)).expect("a legal document");
        let tree = Tree::of(&library);
        let holding = |rule: &str| {
            let test = reader::read(rule.as_bytes());
            let holds = backward::holds(&tree, &test);
            holds.iter().filter(|holds| **holds).count()
        };
        assert_eq!(holding("#4096*+l+r+LR"), most);
        assert_eq!(holding("#4095*+l+r+LR"), most);
        assert_eq!(holding("#4096*+lr"), 1);
        assert_eq!(holding("#4095.l*+lr"), 1);
        assert_eq!(holding("#4096.l*+lr"), 0);
        assert_eq!(holding("!#4096..*+LR*+lr[!:b]"), 0);
    }
}
