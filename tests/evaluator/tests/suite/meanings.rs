//! What rules mark.

use crate::samples::run;
use evaluator::random::{branching_library, library, rule, rule_about, Random};
use evaluator::samples::selections::GROUPS;
use evaluator::tree::Tree;
use evaluator::{backward, meaning, reader};

#[test]
fn every_fixed_selection_marks_what_is_due() {
    for (name, cases) in GROUPS {
        for case in cases() {
            let (outcome, nodes) = run(&case.document, case.rule);
            assert_eq!(nodes, case.marked, "{name}: {}", case.rule);
            assert_eq!(outcome.selected, case.marked.len());
        }
    }
}

/// Whether a random rule marks some nodes and not all; by both meanings it
/// marks the same.
fn marks_some(seed: u64, random: &mut Random, tree: &Tree) -> bool {
    let size = 2 + random.below(24);
    let test = match random.percent(50) {
        true => rule(random, size),
        false => rule_about(random, size, &tree.values),
    };
    let holds = backward::holds(tree, &test);
    let due = meaning::holds(tree, &test);
    let spelled = String::from_utf8_lossy(&test.spell()).into_owned();
    assert_eq!(holds, due, "seed {seed}: {spelled}");
    holds.contains(&true) && holds.contains(&false)
}

#[test]
fn backward_is_the_same_meaning_on_small_trees() {
    let mut some = 0;
    for seed in 0..4_000 {
        let random = &mut Random::new(seed);
        let nodes = 1 + random.below(24);
        let tree = Tree::of(&library(random, nodes));
        some += usize::from(marks_some(seed, random, &tree));
    }
    assert!(some > 1_000, "{some} marked some nodes and not all");
}

#[test]
fn backward_is_the_same_meaning_on_larger_trees() {
    let mut some = 0;
    for seed in 0..600 {
        let random = &mut Random::new(seed);
        let nodes = 25 + random.below(276);
        let tree = Tree::of(&match random.percent(50) {
            true => library(random, nodes),
            false => branching_library(random, nodes),
        });
        some += usize::from(marks_some(seed, random, &tree));
    }
    assert!(some > 200, "{some} marked some nodes and not all");
}

#[test]
fn backward_goes_as_far_as_a_library_does() {
    // Each of 4,096 nodes inside the one before it, the last a text.
    let depth = 4_095;
    let mut rows: Vec<_> = (0..depth).map(|depth| ('e', depth, "a", "")).collect();
    rows.push(('t', depth, "text", "v"));
    let document = evaluator::samples::document(&rows);
    let library = evaluator::document::read(&document).expect("a legal document");
    let tree = Tree::of(&library);
    let holding = |rule: &str| {
        let holds = backward::holds(&tree, &reader::read(rule.as_bytes()));
        holds.iter().filter(|holds| **holds).count()
    };
    assert_eq!(holding("(.*l[:text]=\"v\")"), 4_096);
    assert_eq!(holding("(.l.l.l*l=\"v\")"), 4_093);
    assert_eq!(holding("(.*L[!(L=e)]=.*l[:text])"), 4_096);
}
