//! Asks the archive and the evaluator the same about a rule, and reports a
//! difference with a small rule.

use evaluator::rule_check::check;
use evaluator::shrink::shrink;
use evaluator::Refusal;
use yurzhoad::archive::{check_rule, RuleAnswer};

/// What the archive hands back, as the evaluator's record.
pub fn archive_refusal(rule: &[u8]) -> Refusal {
    let RuleAnswer { number, place } = check_rule(rule);
    Refusal {
        number: u32::from(number),
        place,
    }
}

/// Asserts that both say the same of a rule, and returns what they say. The
/// origin tells how the rule was made: a seed or the name of a case.
pub fn assert_agreement(origin: impl std::fmt::Display, rule: &[u8]) -> Refusal {
    let refusal = archive_refusal(rule);
    if refusal != check(rule) {
        report(&origin.to_string(), rule);
    }
    refusal
}

/// Asserts that both say what is due.
pub fn assert_judged(origin: impl std::fmt::Display, rule: &[u8], due: (u32, usize)) {
    let refusal = assert_agreement(&origin, rule);
    let found = (refusal.number, refusal.place);
    assert_eq!(found, due, "{origin}: {}", rule.escape_ascii());
}

/// Bytes outside the printable ones are shown escaped.
fn report(origin: &str, rule: &[u8]) -> ! {
    let small = shrink(rule, |bytes| archive_refusal(bytes) != check(bytes));
    panic!(
        "{origin}\n{}\narchive: {:?}\nevaluator: {:?}\nShrunk to:\n{}\narchive: {:?}\nevaluator: {:?}",
        rule.escape_ascii(),
        archive_refusal(rule),
        check(rule),
        small.escape_ascii(),
        archive_refusal(&small),
        check(&small),
    );
}
