//! The promises of demand 3 on random documents and rules. That the settling
//! rule agrees with the definition at every node, and that the counts keep
//! their bound, is asserted inside every evaluation.

use std::cell::Cell;

use crate::failure::assert_on_pair;
use evaluator::evaluate::{evaluate, needed_words, Evaluation, Outcome};
use evaluator::random::{library, rule, Random};
use evaluator::reader;
use evaluator::rule::{equalities, Operand, Path, Sign, Test};

/// How much the random cases exercised, so that they are known not to be idle.
#[derive(Default)]
struct Exercise {
    pairs: Cell<usize>,
    with_snippets: Cell<usize>,
    with_many_snippets: Cell<usize>,
    with_two_equalities: Cell<usize>,
    some_but_not_all_marked: Cell<usize>,
}

fn add(counter: &Cell<usize>, condition: bool) {
    counter.set(counter.get() + usize::from(condition));
}

impl Exercise {
    fn note(&self, nodes: usize, outcome: &Outcome, equalities: usize) {
        add(&self.pairs, true);
        add(&self.with_snippets, outcome.snippets > 0);
        add(&self.with_many_snippets, outcome.snippets > 4 * nodes);
        add(&self.with_two_equalities, equalities >= 2);
        let some = outcome.selected > 0 && outcome.selected < nodes;
        add(&self.some_but_not_all_marked, some);
    }

    /// At least one case in ten of each kind.
    fn assert_not_idle(&self) {
        let all = self.pairs.get();
        for counter in [
            &self.with_snippets,
            &self.with_many_snippets,
            &self.with_two_equalities,
            &self.some_but_not_all_marked,
        ] {
            assert!(counter.get() * 10 >= all, "{} of {all}", counter.get());
        }
    }
}

/// An accepted call with buffers just large enough.
fn accepted(document: &[u8], rule: &[u8], kind: Evaluation) -> (Outcome, Vec<u8>) {
    let nodes = evaluator::document::check(document).nodes;
    let (outcome, marks) = evaluate(document, rule, needed_words(nodes), nodes, kind);
    assert_eq!(outcome.number, 0);
    (outcome, marks.expect("marks of an accepted call"))
}

/// Both evaluations mark the same nodes and count them; and since an equality
/// is the same with its paths exchanged, so are its marks and its snippets.
fn promises(document: &[u8], rule: &[u8], exercise: &Exercise) {
    let (plain, plain_marks) = accepted(document, rule, Evaluation::Plain);
    let (snippets, marks) = accepted(document, rule, Evaluation::Snippets);
    assert_eq!(marks, plain_marks);
    let ones = marks.iter().filter(|mark| **mark == 1).count();
    let zeros = marks.iter().filter(|mark| **mark == 0).count();
    assert_eq!((ones + zeros, ones), (marks.len(), snippets.selected));
    assert_eq!((plain.selected, plain.snippets), (snippets.selected, 0));

    let test = reader::read(rule);
    let exchanged = exchange_test(&test).spell();
    let (other, other_marks) = accepted(document, &exchanged, Evaluation::Snippets);
    assert_eq!((other, other_marks), (snippets, marks));
    exercise.note(plain_marks.len(), &snippets, equalities(&test).len());
}

/// The rule with the two paths of each equality exchanged.
fn exchange_test(test: &Test) -> Test {
    let boxed = |test: &Test| Box::new(exchange_test(test));
    match test {
        Test::Name(name) => Test::Name(name.clone()),
        Test::Not(a) => Test::Not(boxed(a)),
        Test::And(a, b) => Test::And(boxed(a), boxed(b)),
        Test::Or(a, b) => Test::Or(boxed(a), boxed(b)),
        Test::Compare(p, Sign::Equal, Operand::Path(r)) => {
            let second = Operand::Path(exchange_path(p));
            Test::Compare(exchange_path(r), Sign::Equal, second)
        }
        Test::Compare(p, sign, Operand::Path(r)) => {
            Test::Compare(exchange_path(p), *sign, Operand::Path(exchange_path(r)))
        }
        Test::Compare(p, sign, constant) => {
            Test::Compare(exchange_path(p), *sign, constant.clone())
        }
        Test::AtLeast(n, p) => Test::AtLeast(*n, exchange_path(p)),
    }
}

fn exchange_path(path: &Path) -> Path {
    let boxed = |path: &Path| Box::new(exchange_path(path));
    match path {
        Path::Stay(test) => Path::Stay(Box::new(exchange_test(test))),
        Path::Then(a, b) => Path::Then(boxed(a), boxed(b)),
        Path::Either(a, b) => Path::Either(boxed(a), boxed(b)),
        Path::Repeat(a) => Path::Repeat(boxed(a)),
        step => step.clone(),
    }
}

fn try_pairs(seeds: std::ops::Range<u64>, most_nodes: usize, most_parts: usize) -> Exercise {
    let exercise = Exercise::default();
    for seed in seeds {
        let random = &mut Random::new(seed);
        let nodes = 1 + random.below(most_nodes);
        let library = library(random, nodes);
        let size = 4 + random.below(most_parts);
        let rule = rule(random, size).spell();
        assert_on_pair(seed, &library, &rule, |document, rule| {
            promises(document, rule, &exercise);
        });
    }
    exercise
}

#[test]
fn promises_hold_on_small_libraries() {
    try_pairs(0..10_000, 10, 20).assert_not_idle();
}

#[test]
fn promises_hold_on_larger_libraries_and_rules() {
    try_pairs(10_000..10_300, 63, 60).assert_not_idle();
}
