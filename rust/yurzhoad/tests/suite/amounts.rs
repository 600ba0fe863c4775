//! The order signs go by amount, and `=` and `!=` by text.

use evaluator::samples::document;

use crate::blanks::assert_selected;

/// Drugs with a limit: as much in two spellings, less, none in words, and none.
fn limits() -> Vec<u8> {
    document(&[
        ('e', 0, "lib", ""),
        ('a', 1, "max", "10"),
        ('a', 1, "min", "9"),
        ('a', 1, "usual", "9.50"),
        ('a', 1, "last", "9.5"),
        ('a', 1, "note", "5 mg"),
        ('a', 1, "empty", ""),
    ])
}

#[test]
fn amounts_are_ordered_as_numbers() {
    let bytes = limits();
    assert_selected(&bytes, "(e<\"10\")", &[2, 3, 4]);
    assert_selected(&bytes, "(e>=\"9.5\")", &[1, 3, 4]);
    assert_selected(&bytes, "(e>=r)", &[1, 3]);
    assert_selected(&bytes, "(e<=r)", &[2, 3]);
}

#[test]
fn equality_goes_by_text() {
    let bytes = limits();
    assert_selected(&bytes, "(e=\"9.5\")", &[4]);
    assert_selected(&bytes, "(e!=\"9.5\")", &[0, 1, 2, 3, 5, 6]);
    assert_selected(&bytes, "(e=r)", &[]);
}

#[test]
fn what_is_no_numeral_has_no_order() {
    let bytes = limits();
    assert_selected(&bytes, "(e<=e)", &[1, 2, 3, 4]);
    for sign in ["<", "<=", ">", ">="] {
        for constant in ["5 mg", "", "a", ".5", "1.", "+1", "1234567890"] {
            assert_selected(&bytes, &format!("(e{sign}\"{constant}\")"), &[]);
        }
    }
}
