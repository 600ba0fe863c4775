//! The examples of document 01, beside the fixed selections.

use crate::samples::{run, X};
use evaluator::evaluate::needed_words;
use evaluator::program::program;
use evaluator::samples::selections::SESSION;

#[test]
fn the_session_prints_its_five_lines() {
    let printed = program(format!("{SESSION}\n{X}").as_bytes());
    let due = "number=0\nplace=0\nselected=1\nsnippets=19\nnode=1\n";
    assert_eq!(printed, due);
}

#[test]
fn e_equal_e_on_x_has_four_snippets() {
    assert_eq!(run(X.as_bytes(), "(e=e)").0.snippets, 4);
}

#[test]
fn needed_words_are_as_written() {
    assert_eq!(needed_words(1), 192);
    assert_eq!(needed_words(63), 32_256);
    assert_eq!(needed_words(64), 36_864);
}
