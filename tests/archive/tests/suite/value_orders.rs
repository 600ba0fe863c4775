//! Request (k) of document 02: by a list that has each value of an equality, in any
//! order and with any repeats, record, marks and scratch are those of the snippet
//! evaluation.

use std::collections::BTreeMap;

use crate::evaluation_agreement::{
    assert_by_every_value, assert_by_values, called, called_by_values, needed, Buffers, Length,
};
use crate::value_calls::{draw_buffers, draw_small, Drawn};
use evaluator::by_values::{groups, largest_first};
use evaluator::document::{self, spell, NODE_LIMIT};
use evaluator::evaluate::{Evaluation, Outcome};
use evaluator::random::{every_value, repeated, shuffle, Random};
use evaluator::samples::libraries::SHAPES;
use evaluator::samples::selections::SESSION;
use evaluator::samples::X;
use evaluator::tree::Tree;
use yurzhoad::limits::needed_words;

/// So many pairs of a document and an equality, each by five lists.
const CASES: u64 = 6_000;
/// Other seeds than those of the other tests.
const FIRST_SEED: u64 = 6_000_000;

/// The larger groups first and last, any order, any order with repeats, and all
/// nodes from the last to the first.
fn lists(random: &mut Random, tree: &Tree) -> [Vec<u16>; 5] {
    let falling = largest_first(tree);
    let rising = falling.iter().rev().copied().collect();
    let any = every_value(random, tree);
    let again = repeated(random, tree, &any);
    let nodes = (0..tree.size() as u16).rev().collect();
    [falling, rising, any, again, nodes]
}

/// How much the calls exercised.
#[derive(Default)]
struct Exercise {
    cases: BTreeMap<&'static str, usize>,
}

impl Exercise {
    fn count(&mut self, name: &'static str, condition: bool) {
        *self.cases.entry(name).or_default() += usize::from(condition);
    }

    fn add(&mut self, drawn: &Drawn, lists: &[Vec<u16>; 5], outcome: &Outcome) {
        let nodes = drawn.tree.size();
        self.count("refused", outcome.number != 0);
        if outcome.number != 0 {
            return;
        }
        self.count("accepted", true);
        self.count("with snippets", outcome.snippets > 0);
        self.count("many snippets", outcome.snippets > 8 * nodes);
        let some = outcome.selected > 0 && outcome.selected < nodes;
        self.count("some marked", some);
        let sizes: Vec<usize> = groups(&drawn.tree).iter().map(Vec::len).collect();
        let shared = sizes.iter().filter(|size| **size > 1).count();
        self.count("several groups", shared > 1);
        let differing = sizes.iter().any(|size| *size > 1 && *size != sizes[0]);
        self.count("groups of several sizes", shared > 1 && differing);
        self.count("one value", sizes.len() == 1);
        self.count("nested", drawn.is_nested());
        let [falling, _, any, again, _] = lists;
        self.count("another order", any != falling);
        self.count("repeats", again.len() > any.len());
    }

    fn assert_not_idle(&self) {
        println!("{:?}", self.cases);
        assert!(self.cases["accepted"] > 5_000, "{:?}", self.cases);
        assert!(self.cases["with snippets"] > 4_000, "{:?}", self.cases);
        let often = self.cases.values().all(|cases| *cases >= 200);
        assert!(often, "{:?}", self.cases);
    }
}

#[test]
fn every_value_in_any_order_is_evaluated_as_by_snippets() {
    let mut exercise = Exercise::default();
    for seed in FIRST_SEED..FIRST_SEED + CASES {
        let random = &mut Random::new(seed);
        let drawn = draw_small(random);
        let lists = lists(random, &drawn.tree);
        let buffers = draw_buffers(random, drawn.tree.size());
        let (document, rule) = (&drawn.document, &drawn.rule);
        let origin = format_args!("seed {seed}");
        let outcomes = lists
            .each_ref()
            .map(|list| assert_by_every_value(origin, document, rule, list, buffers));
        assert!(outcomes.iter().all(|outcome| *outcome == outcomes[0]));
        // One of them against the evaluator too.
        let list = &lists[seed as usize % lists.len()];
        let (by_evaluator, _) = assert_by_values(origin, document, rule, list, buffers);
        assert_eq!(by_evaluator, outcomes[0], "seed {seed}");
        exercise.add(&drawn, &lists, &outcomes[0]);
    }
    exercise.assert_not_idle();
}

/// Near and far, starred, with names and with comparisons of all kinds in their
/// brackets.
const RULES: [&str; 6] = [
    "(e=.r*r)",
    SESSION,
    "(.*+lr[:name]=.*+LRr)",
    "(.R[(r=+l+RL)]=+r.ll)",
    "(.+lr[#3.l*r]=+L.R[!#2+lr])",
    "(.*+rR[(e<\"50\")]=.+el[(.*re=l)])",
];

#[test]
fn every_value_in_any_order_on_large_libraries() {
    let (mut some, mut counted) = (0, 0);
    let random = &mut Random::new(6_010_000);
    for (name, shape) in SHAPES {
        for nodes in [100, 513, 1_500, NODE_LIMIT] {
            let library = shape(nodes);
            let (document, tree) = (spell(&library), Tree::of(&library));
            for (at, rule) in RULES.into_iter().enumerate() {
                // All lists of the first rule, and of each other rule one.
                let lists = lists(random, &tree);
                let taken = if at == 0 { 0..5 } else { at - 1..at };
                for list in &lists[taken] {
                    let origin = format!("{name} of {nodes}");
                    let buffers = Buffers {
                        words: Length::Longer(at),
                        marks: Length::Longer(2 * at),
                        seed: nodes as u64,
                    };
                    let rule = rule.as_bytes();
                    let outcome = assert_by_every_value(&origin, &document, rule, list, buffers);
                    assert_eq!(outcome.number, 0, "{origin}");
                    some += usize::from(outcome.selected > 0 && outcome.selected < nodes);
                    counted += usize::from(outcome.snippets > 0);
                }
            }
        }
    }
    println!("{some} marked some nodes and not all, {counted} had snippets");
    assert!(some > 60 && counted > 100, "{some}, {counted}");
}

/// What a call hands back, the marks and the words afterwards, where all words and
/// all marks held this before.
fn filled(document: &[u8], rule: &[u8], list: Option<&[u16]>, fill: u8) -> (Outcome, Vec<u8>) {
    let nodes = document::check(document).nodes;
    let mut scratch = vec![u16::from(fill) * 0x101; needed_words(nodes)];
    let mut marks = vec![fill; nodes];
    let outcome = match list {
        Some(list) => called_by_values(document, rule, list, &mut scratch, &mut marks),
        None => called(
            Evaluation::Snippets,
            document,
            rule,
            &mut scratch,
            &mut marks,
        ),
    };
    assert_eq!(outcome.number, 0);
    assert!(scratch.iter().all(|word| *word == 0));
    (outcome, marks)
}

#[test]
fn whatever_the_buffers_held() {
    let mut counted = 0;
    for seed in 6_020_000..6_020_300 {
        let random = &mut Random::new(seed);
        let drawn = draw_small(random);
        let (document, rule) = (&drawn.document, &drawn.rule);
        let due = filled(document, rule, None, 0);
        let list = every_value(random, &drawn.tree);
        for fill in [0, 1, 2, 0xA5, 0xFF] {
            let found = filled(document, rule, Some(&list), fill);
            assert_eq!(found, due, "seed {seed}, {fill}");
        }
        counted += usize::from(due.0.snippets > 0);
    }
    assert!(counted > 200, "{counted} had snippets");
}

/// Reading behind its end or before its start would find numbers of no node.
#[test]
fn a_list_inside_a_larger_one() {
    let random = &mut Random::new(6_030_000);
    for around in [5, u16::MAX] {
        for _ in 0..40 {
            let mut list = vec![0, 1, 2, 3, 4];
            shuffle(random, &mut list);
            let larger = [vec![around; 4], list, vec![around; 4]].concat();
            for (from, to) in [(4, 9), (4, 4), (5, 8), (8, 9)] {
                let origin = format!("{larger:?} from {from} to {to}");
                let (x, rule, list) = (X.as_bytes(), SESSION.as_bytes(), &larger[from..to]);
                let (outcome, _) = assert_by_values(&origin, x, rule, list, needed(1));
                assert_eq!(outcome.number, 0, "{origin}");
            }
        }
    }
}
