//! The examples of document 01, every row of its table for numbers 1 to 4, and
//! number 14.

use std::collections::BTreeMap;

use crate::agreement::{archive_record, assert_agreement};
use evaluator::samples::documents::GROUPS;

#[test]
fn every_fixed_document_is_judged_as_due() {
    let mut numbers = BTreeMap::new();
    for (name, cases) in GROUPS {
        for case in cases() {
            let shown = case.document[..case.document.len().min(300)].escape_ascii();
            let record = archive_record(&case.document);
            assert_eq!(record, case.due, "{name}: {shown}");
            assert_agreement(name, &case.document);
            *numbers.entry(record.number).or_insert(0) += 1;
        }
    }
    assert!(numbers.keys().copied().eq([0, 1, 2, 3, 4, 14]));
    assert!(numbers.values().all(|cases| *cases > 1), "{numbers:?}");
}

#[test]
fn an_empty_slice_is_2_at_line_1() {
    let record = assert_agreement("empty", &[]);
    assert_eq!((record.number, record.place, record.nodes), (2, 1, 0));
}
