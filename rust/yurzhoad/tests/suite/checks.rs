//! Checked documents and rules: what the archive says arrives.

use evaluator::document::{self, spell};
use evaluator::random::{any_library, damage_document, damage_one_line, damage_rule};
use evaluator::random::{any_rule, Random};
use evaluator::rule_check;
use evaluator::samples::{document as spelled, documents, rules, X};
use yurzhoad::archive::{evaluate_plain, evaluate_snippets};
use yurzhoad::limits::needed_words;
use yurzhoad::{Library, Refusal, Rule};

use crate::named_twice;

/// Number and place of a check, 0 and 0 if it accepts.
fn outcome<T>(checked: Result<T, Refusal>) -> (u32, usize) {
    match checked {
        Ok(_) => (0, 0),
        Err(refusal) => (u32::from(refusal.number()), refusal.place()),
    }
}

/// Asserts that a document is checked as the evaluator does; says whether it
/// is accepted.
fn assert_document(origin: &str, bytes: &[u8]) -> bool {
    let due = document::check(bytes);
    let checked = Library::check(bytes);
    assert_eq!(
        outcome(checked.clone()),
        (due.number, due.place),
        "{origin}"
    );
    let Ok(library) = checked else { return false };
    assert_eq!(library.nodes(), due.nodes, "{origin}");
    assert_eq!(library.bytes(), bytes, "{origin}");
    assert_eq!(library.as_str().as_bytes(), bytes, "{origin}");
    true
}

/// The same for a rule.
fn assert_rule(origin: &str, bytes: &[u8]) -> bool {
    let due = match rule_check::read(bytes) {
        Ok(_) => (0, 0),
        Err(refusal) => (refusal.number, refusal.place),
    };
    let checked = Rule::check(bytes);
    assert_eq!(outcome(checked.clone()), due, "{origin}");
    let Ok(rule) = checked else { return false };
    assert_eq!(rule.bytes(), bytes, "{origin}");
    assert_eq!(rule.as_str().as_bytes(), bytes, "{origin}");
    true
}

#[test]
fn fixed_documents_are_checked_as_written() {
    for (name, cases) in documents::GROUPS {
        for case in cases() {
            let checked = Library::check(&case.document);
            let nodes = checked.as_ref().map_or(0, Library::nodes);
            assert_eq!(nodes, case.due.nodes, "{name}");
            let due = (case.due.number, case.due.place);
            assert_eq!(outcome(checked), due, "{name}");
        }
    }
}

#[test]
fn fixed_rules_are_checked_as_written() {
    for (name, cases) in rules::GROUPS {
        for case in cases() {
            let due = (case.due.number, case.due.place);
            assert_eq!(outcome(Rule::check(&case.rule)), due, "{name}");
        }
    }
}

#[test]
fn random_documents_are_checked_as_the_evaluator_does() {
    let mut accepted = 0;
    for seed in 4_000_000..4_004_000 {
        let random = &mut Random::new(seed);
        let nodes = 1 + random.below(30);
        let whole = spell(&any_library(random, nodes));
        let bytes = match random.below(4) {
            0 => whole,
            1 => damage_document(random, &whole),
            _ => damage_one_line(random, &whole),
        };
        accepted += usize::from(assert_document(&format!("seed {seed}"), &bytes));
    }
    assert!((1_000..3_000).contains(&accepted), "{accepted} accepted");
}

#[test]
fn random_rules_are_checked_as_the_evaluator_does() {
    let mut accepted = 0;
    for seed in 4_000_000..4_004_000 {
        let random = &mut Random::new(seed);
        let size = 2 + random.below(60);
        let whole = any_rule(random, size).spell();
        let bytes = match random.percent(40) {
            true => whole,
            false => damage_rule(random, &whole),
        };
        accepted += usize::from(assert_rule(&format!("seed {seed}"), &bytes));
    }
    assert!((1_000..3_000).contains(&accepted), "{accepted} accepted");
}

/// Whatever else is lent: the document is judged first.
#[test]
fn an_attribute_given_twice_is_refused_by_every_call_that_reads_the_document() {
    let document = named_twice();
    assert_eq!(outcome(Library::check(&document)), (14, 24));
    for evaluate in [evaluate_plain, evaluate_snippets] {
        for (rule, words) in [(":drug", needed_words(6)), ("no rule", 0)] {
            let (mut scratch, mut marks) = (vec![7; words], [7; 6]);
            let answer = evaluate(&document, rule.as_bytes(), &mut scratch, &mut marks);
            assert_eq!((answer.number, answer.place), (14, 24), "{rule}");
            assert_eq!((answer.selected, answer.snippets), (0, 0), "{rule}");
            assert_eq!((scratch, marks), (vec![7; words], [7; 6]), "{rule}");
        }
    }
}

/// Labels are told apart among the attributes of one element alone: elements,
/// texts and the attributes of other elements may have them too.
#[test]
fn one_label_in_two_places_is_accepted() {
    let document = spelled(&[
        ('e', 0, "name", ""),
        ('a', 1, "name", "heparin"),
        ('a', 1, "names", "heparin"),
        ('a', 1, "nam", "heparin"),
        ('e', 1, "name", ""),
        ('a', 2, "name", "heparin"),
        ('a', 2, "text", "5 mg"),
        ('t', 2, "text", "5 mg"),
        ('e', 1, "name", ""),
    ]);
    assert!(assert_document("labels that are alike", &document));
}

#[test]
fn text_and_bytes_are_checked_alike() {
    let text = String::from(":drug");
    let bytes: Vec<u8> = text.clone().into_bytes();
    let slice: &[u8] = &bytes;
    let due = Rule::check(":drug");
    assert!(due.is_ok());
    assert_eq!(Rule::check(&text), due);
    assert_eq!(Rule::check(&bytes), due);
    assert_eq!(Rule::check(slice), due);
    assert_eq!(Rule::check(b":drug"), due);
    assert_eq!(Library::check(X), Library::check(X.as_bytes()));
}

/// The checked ones are no longer than what they borrow, and copied as easily.
#[test]
fn a_copy_outlives_what_it_was_copied_from() {
    let document = X.to_string();
    let (bytes, entries) = {
        let library = Library::check(&document).expect("X is accepted");
        let copy = library;
        (copy.bytes(), copy.entries())
    };
    assert_eq!((bytes.len(), entries.len()), (X.len(), 5));
}

#[test]
fn what_is_large_is_printed_short() {
    let library = Library::check(X).expect("X is accepted");
    let due = format!("Library {{ bytes: {}, nodes: 5 }}", X.len());
    assert_eq!(format!("{library:?}"), due);
}
