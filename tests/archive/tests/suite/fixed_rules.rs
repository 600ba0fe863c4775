//! The examples of document 01 and every row of its table for numbers 5 to 9.

use crate::rule_agreement::{archive_refusal, assert_agreement};
use evaluator::samples::rules::GROUPS;

#[test]
fn every_fixed_rule_is_judged_as_due() {
    let mut numbers = [0; 10];
    for (name, cases) in GROUPS {
        for case in cases() {
            let shown = case.rule.escape_ascii();
            let refusal = archive_refusal(&case.rule);
            assert_eq!(refusal, case.due, "{name}: {shown}");
            assert_agreement(name, &case.rule);
            numbers[refusal.number as usize] += 1;
        }
    }
    for number in [0, 5, 6, 7, 8, 9] {
        assert!(numbers[number] > 1, "{numbers:?}");
    }
}

#[test]
fn an_empty_slice_is_6_at_0() {
    let refusal = assert_agreement("empty", &[]);
    assert_eq!((refusal.number, refusal.place), (6, 0));
}
