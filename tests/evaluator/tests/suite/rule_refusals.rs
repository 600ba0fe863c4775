//! Numbers 5 to 9: every row of the table, and which of two comes first.

use evaluator::rule_check::check;
use evaluator::samples::rules::GROUPS;

#[test]
fn every_fixed_rule_is_judged_as_due() {
    for (name, cases) in GROUPS {
        for case in cases() {
            let shown = case.rule.escape_ascii();
            assert_eq!(check(&case.rule), case.due, "{name}: {shown}");
        }
    }
}
