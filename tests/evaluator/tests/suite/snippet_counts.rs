//! Snippet counts that can be worked out by hand.

use std::collections::BTreeSet;

use crate::samples::{document, run};
use evaluator::samples::counts::GROUPS;
use evaluator::snippets::{exponent, skeleton};
use evaluator::tree::Tree;

#[test]
fn every_fixed_count_is_due() {
    for (name, cases) in GROUPS {
        for case in cases() {
            let count = run(&case.document, case.rule).0.snippets;
            assert_eq!(count, case.snippets, "{name}: {}", case.rule);
        }
    }
}

#[test]
fn exponents_are_those_of_the_largest_powers_not_above() {
    for length in 1..=4096_usize {
        let k = exponent(length);
        assert!(1 << k <= length && length < 2 << k);
    }
}

#[test]
fn a_skeleton_has_the_closest_common_ancestors() {
    // 0 lib (1 drug (2 text, 3 text), 4 drug (5 text)): in the binary tree 4
    // is the right child of 1, so 1 is above 2, 3, 4 and 5.
    let library = evaluator::document::read(&document(&[
        ('e', 0, "lib", ""),
        ('e', 1, "drug", ""),
        ('t', 2, "text", "a"),
        ('t', 2, "text", "b"),
        ('e', 1, "drug", ""),
        ('t', 2, "text", "a"),
    ]))
    .expect("a legal document");
    let tree = Tree::of(&library);
    let of = |d: &[usize]| skeleton(&tree, &d.iter().copied().collect());
    assert_eq!(of(&[3, 5]), BTreeSet::from([1, 3, 5]));
    assert_eq!(of(&[2, 3]), BTreeSet::from([2, 3]));
    assert_eq!(of(&[0, 5]), BTreeSet::from([0, 5]));
    assert_eq!(of(&[3, 4, 5]), BTreeSet::from([1, 3, 4, 5]));
    assert_eq!(of(&[2]), BTreeSet::from([2]));
}
