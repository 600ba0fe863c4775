//! Blanks at the ends of values: no comparison counts them, and all that is
//! shown has them.

use evaluator::samples::document;
use evaluator::samples::selections::SESSION;
use yurzhoad::{Library, Rule, Selector};

use crate::selections::METHODS;

/// A drug with a padded name and a text in two parts, and one with a bare name
/// and a note of blanks.
fn padded() -> Vec<u8> {
    document(&[
        ('e', 0, "lib", ""),
        ('e', 1, "drug", ""),
        ('a', 2, "name", "  heparin "),
        ('t', 2, "text", " 5 "),
        ('t', 2, "text", "mg "),
        ('e', 1, "drug", ""),
        ('a', 2, "name", "heparin"),
        ('a', 2, "note", "   "),
    ])
}

/// Both evaluations select these nodes of a document.
pub fn assert_selected(bytes: &[u8], rule: &str, due: &[usize]) {
    let library = Library::check(bytes).expect("an accepted document");
    let checked = Rule::check(rule).expect("an accepted rule");
    assert_eq!(checked.as_str(), rule);
    for method in METHODS {
        let mut selector = Selector::new(method);
        let selection = selector.select(&library, &checked);
        assert!(
            selection.nodes().eq(due.iter().copied()),
            "{method:?}: {rule}: {:?}",
            selection.marks()
        );
    }
}

#[test]
fn blanks_at_the_ends_do_not_count() {
    let bytes = padded();
    for constant in ["heparin", " heparin", "heparin   ", "  heparin "] {
        assert_selected(&bytes, &format!("(e=\"{constant}\")"), &[2, 6]);
    }
    assert_selected(&bytes, SESSION, &[1]);
    // Of all values only the text 3 is a numeral.
    assert_selected(&bytes, "(e<=\"  5.0 \")", &[3]);
    assert_selected(&bytes, "(e<\"a\")", &[]);
}

#[test]
fn blanks_inside_count() {
    let bytes = padded();
    assert_selected(&bytes, "(e=\"5 mg\")", &[0, 1]);
    assert_selected(&bytes, "(e=\" 5 mg \")", &[0, 1]);
    assert_selected(&bytes, "(e=\"5mg\")", &[]);
    assert_selected(&bytes, "(e=\"hep arin\")", &[]);
}

/// The second drug has no text, and so the empty value too.
#[test]
fn blanks_alone_are_the_empty_value() {
    let bytes = padded();
    for constant in ["", " ", "     "] {
        assert_selected(&bytes, &format!("(e=\"{constant}\")"), &[5, 7]);
        assert_selected(&bytes, &format!("(e<=\"{constant}\")"), &[]);
    }
}

#[test]
fn entries_and_values_are_shown_with_their_blanks() {
    let bytes = padded();
    let library = Library::check(&bytes).expect("an accepted document");
    let table = library.table();
    let shown: Vec<_> = (0..library.nodes()).map(|node| table.value(node)).collect();
    let (name, note, joined) = ("  heparin ", "   ", " 5 mg ");
    let due = [joined, joined, name, " 5 ", "mg ", "", "heparin", note];
    assert_eq!(shown, due);
    assert_eq!((table.entry(2).value, table.entry(7).value), (name, note));
    assert_eq!(library.bytes(), bytes);
}
