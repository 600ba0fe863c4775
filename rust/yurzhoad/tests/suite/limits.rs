//! The limits against those of the proved code.

use std::collections::BTreeMap;

use crate::file;
use evaluator::evaluate::binary_digits;
use yurzhoad::limits::*;

/// The constants of the proved code that are numbers, as `Document::MAX_NODES`.
fn proved_constants() -> BTreeMap<String, usize> {
    let mut constants = BTreeMap::new();
    let mut owner = String::new();
    for line in file("crates/limits/src/lib.rt").lines() {
        if let Some(name) = line.strip_prefix("impl ") {
            owner = name.trim_end_matches(" {").to_string();
        }
        let Some(constant) = line.trim().strip_prefix("pub const ") else {
            continue;
        };
        let (name, value) = constant.split_once(": usize = ").expect("a constant");
        let digits = value.trim_end_matches(';').replace('_', "");
        if let Ok(value) = digits.parse() {
            constants.insert(format!("{owner}::{name}"), value);
        }
    }
    constants
}

#[test]
fn limits_are_those_of_the_proved_code() {
    let proved = proved_constants();
    let pairs = [
        (MAX_DOCUMENT_BYTES, "Document::MAX_BYTES"),
        (MAX_NODES, "Document::MAX_NODES"),
        (MAX_COUNT_DIGITS, "Document::MAX_COUNT_DIGITS"),
        (MAX_DEPTH_DIGITS, "Document::MAX_DEPTH_DIGITS"),
        (MAX_LABEL, "Document::MAX_LABEL"),
        (MAX_VALUE, "Document::MAX_VALUE"),
        (MAX_RULE_BYTES, "Rule::MAX_BYTES"),
        (MAX_TESTS, "Rule::MAX_TESTS"),
        (MAX_NESTING, "Rule::MAX_NESTING"),
        (MAX_STEPS, "Rule::MAX_STEPS"),
        (MAX_CONSTANT, "Rule::MAX_CONSTANT"),
        (MAX_COUNT, "Rule::MAX_COUNT"),
        (MAX_NUMERAL_DIGITS, "Numeral::MAX_DIGITS"),
        (MAX_NUMERAL_DECIMALS, "Numeral::MAX_DECIMALS"),
    ];
    for (limit, name) in pairs {
        assert_eq!(Some(&limit), proved.get(name), "{name}");
    }
    // None of a document, a rule or a numeral is forgotten. The positions are no
    // number there, but the steps and two.
    let owners = ["Document::", "Rule::", "Numeral::"];
    let of_these = |name: &&String| owners.iter().any(|owner| name.starts_with(owner));
    assert_eq!(proved.keys().filter(of_these).count(), pairs.len());
}

#[test]
fn needed_words_are_those_of_the_proved_code() {
    let proved = proved_constants();
    let of = |name: &str| proved[&format!("Scratch::{name}")];
    let (per_digit, per_node) = (of("WORDS_PER_DIGIT"), of("WORDS_PER_NODE"));
    for nodes in 0..=MAX_NODES {
        let due = nodes * (per_digit * binary_digits(nodes) + per_node);
        assert_eq!(needed_words(nodes), due, "{nodes} nodes");
    }
}

#[test]
#[should_panic(expected = "so many nodes are in no document")]
fn needed_words_do_not_wrap() {
    needed_words(usize::MAX / 100);
}
