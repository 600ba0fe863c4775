//! Asks the archive and the evaluator the same, and reports a difference with
//! a small input.

use evaluator::document::{check, DocumentRecord};
use evaluator::shrink::shrink_document;
use yurzhoad::archive::{check_document, DocumentAnswer};

/// What the archive hands back, as the evaluator's record.
pub fn archive_record(document: &[u8]) -> DocumentRecord {
    let DocumentAnswer {
        number,
        place,
        nodes,
    } = check_document(document);
    DocumentRecord {
        number: u32::from(number),
        place,
        nodes,
    }
}

/// Asserts that both say the same of a document, and returns what they say.
/// The origin tells how the document was made: a seed or the name of a case.
pub fn assert_agreement(origin: impl std::fmt::Display, document: &[u8]) -> DocumentRecord {
    let record = archive_record(document);
    if record != check(document) {
        report(&origin.to_string(), document);
    }
    record
}

/// How much of a document is printed, for those that need their length.
const SHOWN: usize = 2_000;

/// Bytes outside the printable ones are shown escaped.
fn report(origin: &str, document: &[u8]) -> ! {
    let differs = |bytes: &[u8]| archive_record(bytes) != check(bytes);
    let small = shrink_document(document, differs);
    panic!(
        "{origin}\narchive: {:?}\nevaluator: {:?}\nShrunk to {} of {} bytes:\n{}\narchive: {:?}\nevaluator: {:?}",
        archive_record(document),
        check(document),
        small.len(),
        document.len(),
        small[..small.len().min(SHOWN)].escape_ascii(),
        archive_record(&small),
        check(&small),
    );
}
