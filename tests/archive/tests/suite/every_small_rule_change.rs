//! All changes of some small kind to a rule, tried one by one.

use crate::rule_agreement::{assert_agreement, assert_judged};
use evaluator::samples::rules::{CONSTRUCTS, MARKED};
use evaluator::samples::{balanced, steps};

/// Accepted rules that have every construct between them, and some that have
/// just as much of something as they may.
fn rules() -> Vec<Vec<u8>> {
    let mut rules: Vec<String> = CONSTRUCTS.map(str::to_string).into();
    rules.extend(MARKED.map(str::to_string));
    rules.extend([
        format!("!:{}", "n".repeat(16)),
        format!("(e<=\"{}\")", "c".repeat(32)),
        format!("{}:a", "!".repeat(31)),
        format!("(*{}e!=l)", "*".repeat(29)),
        format!("({}>=[:a])", steps(13)),
        "&|:a(*+l[!:b]<\"c\")(.[(R=e)]*r>=*.e*L)".to_string(),
    ]);
    rules.into_iter().map(String::into_bytes).collect()
}

#[test]
fn every_prefix_of_a_rule() {
    // The slices share one buffer: reading behind the end would find the rest.
    for rule in rules() {
        let mut accepted = 0;
        for length in 0..=rule.len() {
            let refusal = assert_agreement("a prefix", &rule[..length]);
            accepted += usize::from(refusal.number == 0);
        }
        assert!(accepted > 0, "the whole rule is a prefix of itself");
    }
}

#[test]
fn a_rule_inside_a_larger_buffer() {
    for rule in rules() {
        for fill in ["!", ":a", "(e=", "e)", "\""] {
            let buffer = [fill.as_bytes(), &rule, fill.as_bytes()].concat();
            let inside = &buffer[fill.len()..fill.len() + rule.len()];
            assert_judged("a rule inside a buffer", inside, (0, 0));
        }
    }
}

/// Returns how many cases were compared.
fn change_every_byte(rule: &[u8]) -> usize {
    let mut compared = 0;
    let mut compare = |rule: &[u8]| {
        assert_agreement("a byte changed, put in or left out", rule);
        compared += 1;
    };
    for at in 0..=rule.len() {
        let (before, behind) = rule.split_at(at);
        let rest = behind.get(1..).unwrap_or_default();
        compare(&[before, rest].concat());
        for byte in 0..=255 {
            compare(&[before, &[byte], rest].concat());
            // Among these is every byte doubled.
            compare(&[before, &[byte], behind].concat());
        }
    }
    compared
}

#[test]
fn every_byte_changed_put_in_or_left_out() {
    let compared: usize = rules().iter().map(|rule| change_every_byte(rule)).sum();
    assert!(compared >= 200_000, "{compared}");
}

#[test]
fn every_byte_of_a_rule_with_64_tests_left_out_or_doubled() {
    let rule = format!("!{}", balanced(32)).into_bytes();
    assert_judged("64 tests", &rule, (0, 0));
    for at in 0..rule.len() {
        let without = [&rule[..at], &rule[at + 1..]].concat();
        assert_agreement(format_args!("byte {at} left out"), &without);
        let doubled = [&rule[..at], &rule[at..=at], &rule[at..]].concat();
        assert_agreement(format_args!("byte {at} doubled"), &doubled);
    }
}

#[test]
fn every_length_of_name_and_constant() {
    for length in 0..=40 {
        for byte in ["a", "z", "9", "-"] {
            let name = format!("a{}", byte.repeat(length));
            for rule in [
                format!(":{name}"),
                format!("&:{name}:b"),
                format!("([:{name}]=e)"),
            ] {
                assert_agreement("name", rule.as_bytes());
            }
        }
        let due = |rule: &str| assert_agreement("constant", rule.as_bytes()).number;
        for byte in [" ", "!", "#", ")", "~"] {
            let constant = byte.repeat(length);
            let number = if length <= 32 { 0 } else { 6 };
            assert_eq!(due(&format!("(e=\"{constant}\")")), number);
            assert_eq!(due(&format!("(e=\"{constant}\"")), 6);
            assert_eq!(due(&format!("(e=\"{constant}")), 6);
            assert_eq!(due(&format!("&([(l<\"{constant}\")]=e):a")), number);
        }
    }
}
