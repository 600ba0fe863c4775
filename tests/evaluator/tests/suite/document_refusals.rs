//! Numbers 1 to 4 and 14: every row of the table, and which of two comes first.

use evaluator::document::{check, read, spell};
use evaluator::samples::documents::GROUPS;
use evaluator::samples::X;

#[test]
fn every_fixed_document_is_judged_as_due() {
    for (name, cases) in GROUPS {
        for case in cases() {
            let shown = case.document[..case.document.len().min(300)].escape_ascii();
            assert_eq!(check(&case.document), case.due, "{name}: {shown}");
        }
    }
}

#[test]
fn a_document_spells_its_library_back() {
    let library = read(X.as_bytes()).expect("X is legal");
    assert_eq!(spell(&library), X.as_bytes());
}
