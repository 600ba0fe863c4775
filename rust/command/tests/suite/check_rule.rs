//! `yurzhoad check --rule RULE` on good and refused rules.

use evaluator::samples::rules::GROUPS;
use evaluator::samples::{balanced, steps};

use crate::desk::{accepted, failed, run_inside, Desk};

fn assert_accepted(rule: &str, summary: &str) {
    let ran = Desk::new().run(["check", "--rule", rule]);
    assert_eq!(ran, accepted(&format!("accepted: {summary}\n")));
}

/// The whole of what a refusal prints.
fn assert_refused(rule: &str, words: &[&str]) {
    let due = format!("yurzhoad: the rule is refused: {}\n", words.join("\n"));
    let desk = Desk::new();
    for arguments in [&["check", "--rule", rule][..], &["explain", rule]] {
        assert_eq!(desk.run(arguments), failed(1, &due), "{arguments:?}");
    }
}

#[test]
fn a_good_rule_is_accepted_with_what_is_limited() {
    assert_accepted(
        ":drug",
        "1 test of 64, nesting 1 of 32, no comparison or count",
    );
    assert_accepted("(l=e)", "1 test of 64, nesting 2 of 32, 1 step of 14");
    assert_accepted(
        "(.l[:name]=..r*rl)",
        "2 tests of 64, nesting 5 of 32, 5 steps of 14",
    );
    assert_accepted(
        "&(e=e)([(.lr<\"a\")]!=l)",
        "4 tests of 64, nesting 6 of 32, steps of 14: 0 at 1, 2 at 6, 2 at 8",
    );
    assert_accepted("#3.l*r", "1 test of 64, nesting 4 of 32, 2 steps of 14");
    assert_accepted(
        "&#10..l*r[(e=\"\")]([#0e]!=l)",
        "5 tests of 64, nesting 6 of 32, steps of 14: 3 at 1, 0 at 10, 2 at 17, 0 at 19",
    );
}

#[test]
fn rules_at_the_limits() {
    let deepest = "!".repeat(31) + ":a";
    assert_accepted(
        &deepest,
        "32 tests of 64, nesting 32 of 32, no comparison or count",
    );
    let most = "&!:a".repeat(21) + ":a";
    assert_accepted(
        &most,
        "64 tests of 64, nesting 23 of 32, no comparison or count",
    );
    let longest = format!("({}={})", steps(13), "l");
    assert_accepted(&longest, "1 test of 64, nesting 14 of 32, 14 steps of 14");
    let longest = format!("#4096{}", steps(14));
    assert_accepted(&longest, "1 test of 64, nesting 15 of 32, 14 steps of 14");
}

#[test]
fn number_5_too_many_bytes() {
    // An operand is there as a whole, so its bytes can be counted.
    let words = "number 5 at place 0: it has 1025 bytes, and at most 1024 are allowed";
    assert_refused(&"x".repeat(1_025), &[words]);
    assert_refused(
        &"x".repeat(1_024),
        &[
            "number 6 at offset 0: it does not read on from here",
            &format!("  {}...", "x".repeat(72)),
            "  ^",
        ],
    );
}

#[test]
fn number_6_does_not_read() {
    let on = |offset: usize| format!("number 6 at offset {offset}: it does not read on from here");
    let ends =
        |offset: usize| format!("number 6 at offset {offset}: it ends here and is not whole");
    assert_refused("", &[&ends(0), "  ", "  ^"]);
    assert_refused("drug", &[&on(0), "  drug", "  ^"]);
    assert_refused(":drug ", &[&on(5), "  :drug ", "       ^"]);
    assert_refused(":Drug", &[&on(1), "  :Drug", "   ^"]);
    assert_refused(
        "(l=\"heparin)",
        &[&ends(12), "  (l=\"heparin)", "              ^"],
    );
    assert_refused("(le=e)", &[&on(2), "  (le=e)", "    ^"]);
    assert_refused("(e =e)", &[&on(2), "  (e =e)", "    ^"]);
    assert_refused(":a\r\n", &[&on(2), "  :a\\r\\n", "    ^"]);
    assert_refused("#4097e", &[&on(4), "  #4097e", "      ^"]);
    assert_refused("#01e", &[&on(2), "  #01e", "    ^"]);
    assert_refused("#", &[&ends(1), "  #", "   ^"]);
    assert_refused(
        "(e=\"\u{e9}\")",
        &[&on(4), "  (e=\"\\xc3\\xa9\")", "      ^"],
    );
}

#[test]
fn number_7_nested_too_deep() {
    let rule = "!".repeat(32) + ":a";
    assert_refused(
        &rule,
        &[
            "number 7 at offset 32: the part that begins here is nested deeper than 32",
            &format!("  {rule}"),
            &format!("  {}^", " ".repeat(32)),
        ],
    );
}

#[test]
fn number_8_too_many_tests() {
    let rule = format!("!{}:a", "&!:a".repeat(21));
    // 72 characters around the offset, and what stands before is cut.
    let shown = format!("  ...{}", &rule[rule.len() - 72..]);
    let caret = format!("  {}^", " ".repeat(3 + 72 - 2));
    let words = "number 8 at offset 85: a test begins here, and 64 tests are before it already";
    assert_refused(&rule, &[words, &shown, &caret]);
    let ran = Desk::new().run(["check", "--rule", &balanced(33)]);
    assert!(ran.err.contains(": number 8 at offset "), "{}", ran.err);
}

#[test]
fn number_9_too_many_steps() {
    let rule = format!("!({}=e)", steps(15));
    assert_refused(
        &rule,
        &[
            "number 9 at offset 1: the comparison that opens here has more than 14 steps",
            &format!("  {rule}"),
            "   ^",
        ],
    );
    let rule = format!("!#4096{}", steps(15));
    assert_refused(
        &rule,
        &[
            "number 9 at offset 1: the count that begins here has more than 14 steps",
            &format!("  {rule}"),
            "   ^",
        ],
    );
}

/// Every fixed rule of the evaluator, from standard input: some have bytes that
/// no operand can have.
#[test]
fn every_fixed_rule_is_judged_as_due() {
    let mut numbers = [0; 10];
    for (name, cases) in GROUPS {
        for case in cases() {
            // An LF behind it is taken off, so that one inside it stays.
            let input = [&case.rule[..], b"\n"].concat();
            let ran = run_inside(&input, ["check", "--rule", "-"]);
            let (number, place) = (case.due.number, case.due.place);
            let at = if number == 5 { "place" } else { "offset" };
            let told = format!(
                "yurzhoad: standard input: the rule is refused: number {number} at {at} {place}: "
            );
            let shown = case.rule.escape_ascii();
            match number {
                0 => assert!(ran.out.starts_with("accepted: "), "{name}: {shown}"),
                _ => assert!(ran.err.starts_with(&told), "{name}: {shown}: {}", ran.err),
            }
            assert_eq!(ran.status, i32::from(number > 0), "{name}: {shown}");
            numbers[number as usize] += 1;
        }
    }
    for number in [0, 5, 6, 7, 8, 9] {
        assert!(numbers[number] > 1, "{numbers:?}");
    }
}

#[cfg(unix)]
#[test]
fn an_operand_that_is_no_text_is_refused() {
    use std::ffi::OsStr;
    use std::os::unix::ffi::OsStrExt;

    let rule = OsStr::from_bytes(b":a\xff");
    let ran = Desk::new().run([OsStr::new("check"), OsStr::new("--rule"), rule]);
    let due = "yurzhoad: the rule is refused: number 6 at offset 2: \
               it does not read on from here\n  :a\\xff\n    ^\n";
    assert_eq!(ran, failed(1, due));
}
