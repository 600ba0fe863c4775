//! Fixed rules with what their check must hand back: every row of the table
//! for numbers 5 to 9, and which of two comes first.

use super::{at_least, balanced, blanks, steps};
use crate::Refusal;

pub struct RuleCase {
    pub rule: Vec<u8>,
    pub due: Refusal,
}

/// A name that says what holds of the cases, and the function that makes them.
pub type Group = (&'static str, fn() -> Vec<RuleCase>);

/// All fixed cases.
pub const GROUPS: [Group; 23] = [
    ("the examples of document 01", examples),
    ("every construct is accepted", constructs),
    ("a rule above 1,024 bytes is 5", byte_limit),
    ("a test that does not read is 6", unread_tests),
    ("a comparison that does not read is 6", unread_comparisons),
    ("a path that does not read is 6", unread_paths),
    ("bytes that are no text do not read", no_text),
    ("names and constants have their limits", names_and_constants),
    ("nesting 33 is 7", nesting),
    ("7 needs a part begun inside the prefix", deep_and_unread),
    ("the 65th test is 8", test_limit),
    ("a comparison above 14 steps is 9", step_limit),
    ("a bracket is one step", brackets),
    ("of several refusals the order decides", first_of_several),
    ("of each two in both orders of place", competing_pairs),
    ("blanks are part of a constant", blanks::rules),
    ("n is 0 to 4,096 without leading zeros", at_least::spelled),
    ("a number that is no n is 6", at_least::unread_numbers),
    ("a count that does not read is 6", at_least::unread_counts),
    (
        "the path of a count is a part, and n is none",
        at_least::nesting,
    ),
    ("a count is one test", at_least::tests),
    ("a count above 14 steps is 9", at_least::step_limit),
    (
        "of comparisons and counts above 14 the first is named",
        at_least::first_above,
    ),
];

pub(super) fn case(rule: impl Into<Vec<u8>>, number: u32, place: usize) -> RuleCase {
    RuleCase {
        rule: rule.into(),
        due: Refusal { number, place },
    }
}

pub(super) fn accepted(rule: impl Into<Vec<u8>>) -> RuleCase {
    case(rule, 0, 0)
}

/// 6 at the length of the longest prefix that begins some rule.
pub(super) fn unread<const COUNT: usize>(cases: [(&str, usize); COUNT]) -> Vec<RuleCase> {
    cases.map(|(rule, place)| case(rule, 6, place)).into()
}

pub(super) fn nots(count: usize) -> String {
    "!".repeat(count)
}

/// The rules that document 01 marks on X, the session's last, and one more
/// that it mentions.
pub const MARKED: [&str; 11] = [
    ":drug",
    "!:drug",
    "(e=e)",
    "(e!=e)",
    "(l=\"heparin\")",
    "(e<\"a\")",
    "(*l=\"heparin\")",
    "(.R*R=\"\")",
    "(r=e)",
    "(r!=e)",
    "(.l[:name]=..r*rl)",
];

fn examples() -> Vec<RuleCase> {
    let mut cases: Vec<RuleCase> = MARKED.map(accepted).into();
    cases.extend([
        case("", 6, 0),
        case(":a!", 6, 2),
        accepted(nots(31) + ":a"),
        case(nots(32) + ":a", 7, 32),
        accepted(format!("({}=e)", steps(14))),
        case(format!("({}=e)", steps(15)), 9, 0),
    ]);
    cases
}

/// Rules that have every construct between them.
pub const CONSTRUCTS: [&str; 24] = [
    ":a",
    "!:a",
    "&:a:b",
    "|:a:b",
    "(e=e)",
    "(e!=e)",
    "(e<e)",
    "(e<=e)",
    "(e>e)",
    "(e>=e)",
    "(e=\"\")",
    "(e>=\"c\")",
    "(l=r)",
    "(L=R)",
    "([:a]=e)",
    "(.lr=+LR)",
    "(*e=**l)",
    "(e=\" !#~\")",
    ":a-9",
    ":a-",
    "(.l[&:a!:b]<=\"))((\")",
    "#0e",
    "#30*l",
    "#4096.l[#1r]",
];

fn constructs() -> Vec<RuleCase> {
    CONSTRUCTS.map(accepted).into()
}

fn byte_limit() -> Vec<RuleCase> {
    vec![
        case("!".repeat(1_025), 5, 0),
        case("x".repeat(2_000), 5, 0),
        case("x".repeat(1_024), 6, 0),
        accepted(constants(1_024)),
        case(constants(1_025), 5, 0),
    ]
}

/// A rule of just so many bytes, at least 1,020 and at most 1,052: 26
/// comparisons of 38 bytes, each behind a `|`, and a last one.
pub fn constants(bytes: usize) -> String {
    let comparison = |bytes: usize| format!("(e=\"{}\")", "c".repeat(bytes - 6));
    let mut rule = comparison(bytes - 26 * 39);
    for _ in 0..26 {
        rule = format!("|{}{rule}", comparison(38));
    }
    rule
}

fn unread_tests() -> Vec<RuleCase> {
    unread([
        ("", 0),
        ("x", 0),
        (" :a", 0),
        ("e", 0),
        ("\n", 0),
        (":", 1),
        (":A", 1),
        (":9", 1),
        (":-", 1),
        (":a!", 2),
        (":a ", 2),
        (":aB", 2),
        (":a:a", 2),
        (":a\r", 2),
        ("!", 1),
        ("!x", 1),
        ("&:a", 3),
        ("&:a)", 3),
        ("|", 1),
        ("|:a", 3),
        ("&:a:b:c", 5),
    ])
}

fn unread_comparisons() -> Vec<RuleCase> {
    unread([
        ("(", 1),
        ("()", 1),
        ("(e", 2),
        ("(e)", 2),
        ("(e=", 3),
        ("(e=)", 3),
        ("(e==e)", 3),
        ("(e=e", 4),
        ("(e=e]", 4),
        ("(e=e))", 5),
        ("(e!e)", 3),
        ("(e!", 3),
        ("(e<>e)", 3),
        ("(e<=", 4),
        ("(e=<e)", 3),
        ("(:a=e)", 1),
        ("(\"c\"=e)", 1),
        ("(e=\"c)", 6),
        ("(e=\"c\"", 6),
        ("(e=\"c\"e", 6),
        ("(e=\"\u{1}\")", 4),
        ("(e=\"\u{7f}\")", 4),
        ("(e=\"a\"b\")", 6),
    ])
}

fn unread_paths() -> Vec<RuleCase> {
    unread([
        ("(le=e)", 2),
        ("(.l=e)", 3),
        ("(*=e)", 2),
        ("(+l=e)", 3),
        ("([:a=e)", 4),
        ("([e]=e)", 2),
        ("([:a]]=e)", 5),
        ("(e =e)", 2),
    ])
}

fn no_text() -> Vec<RuleCase> {
    vec![
        case(b"\xff", 6, 0),
        case(b":a\x80", 6, 2),
        case(b"(e=\"\xe9\")", 6, 4),
        case(b":a\0", 6, 2),
    ]
}

fn names_and_constants() -> Vec<RuleCase> {
    let name = |bytes: usize| "n".repeat(bytes);
    let constant = |bytes: usize| "c".repeat(bytes);
    vec![
        accepted(format!(":{}", name(16))),
        case(format!(":{}", name(17)), 6, 17),
        case(format!("&:{}:b", name(17)), 6, 18),
        accepted(format!("(e=\"{}\")", constant(32))),
        case(format!("(e=\"{}\")", constant(33)), 6, 36),
        case(format!("(e=\"{}", constant(33)), 6, 36),
        case(format!("(e=\"{}", constant(32)), 6, 36),
    ]
}

fn nesting() -> Vec<RuleCase> {
    vec![
        accepted(format!("{}:a", nots(31))),
        case(format!("{}:a", nots(32)), 7, 32),
        case(format!("{}:a", nots(500)), 7, 32),
        // Paths nest as tests do: the comparison has 1, its path 2, and so on.
        accepted(format!("({}e=e)", "*".repeat(30))),
        case(format!("({}e=e)", "*".repeat(31)), 7, 32),
        case(format!("(e={}l)", "*".repeat(31)), 7, 34),
        case(format!("(e!={}l)", "*".repeat(31)), 7, 35),
        // A bracket is one nesting, the test inside it the next.
        accepted(format!("{}([:a]=e)", nots(29))),
        case(format!("{}([:a]=e)", nots(30)), 7, 32),
        accepted(format!("{}(e=e)", nots(30))),
        case(format!("{}(e=e)", nots(31)), 7, 32),
        // A constant is no part.
        accepted(format!("{}(e=\"c\")", nots(30))),
        // The first part at nesting 33 counts, though a later one lies deeper.
        case(format!("{}&:abc!!:d", nots(31)), 7, 32),
        case(format!("&:abc{}:a", nots(31)), 7, 36),
    ]
}

fn deep_and_unread() -> Vec<RuleCase> {
    vec![
        case(nots(31), 6, 31),
        case(nots(32), 6, 32),
        case(format!("{}x", nots(32)), 6, 32),
        case(nots(33), 7, 32),
        case(format!("{}:", nots(32)), 7, 32),
        case(format!("{}:X", nots(32)), 7, 32),
        case(format!("{}(", nots(32)), 7, 32),
        case(format!("{}:a!", nots(32)), 7, 32),
        case(format!("{}(!", nots(31)), 6, 32),
        case(format!("{}(e", nots(31)), 7, 32),
        case(format!("{}(ex", nots(31)), 7, 32),
        case(format!("{}x{}", nots(10), nots(40)), 6, 10),
        case(format!("(e={}", "*".repeat(31)), 6, 34),
        case(format!("(e={}[", "*".repeat(31)), 7, 34),
    ]
}

fn test_limit() -> Vec<RuleCase> {
    let (full, above) = (balanced(32), balanced(33));
    let behind = format!("!!{full}");
    let inside = format!("([{full}]=[:b])");
    vec![
        accepted(full.as_str()),
        accepted(format!("!{full}")),
        // 65 tests: the last is the last name.
        case(above.as_str(), 8, above.len() - 2),
        case(behind.as_str(), 8, behind.len() - 2),
        // Tests in brackets are tests too; paths and comparisons' sides are not.
        accepted(format!("([{full}]=e)")),
        case(inside.as_str(), 8, inside.len() - 4),
        // Many more: still the 65th.
        case(format!("&{full}{}", balanced(20)), 8, 1 + full.len()),
    ]
}

fn step_limit() -> Vec<RuleCase> {
    let mut cases = Vec::new();
    for sign in ["=", "!=", "<", "<=", ">", ">="] {
        cases.extend([
            accepted(format!("({}{sign}e)", steps(14))),
            accepted(format!("({}{sign}{})", steps(7), steps(7))),
            accepted(format!("({}{sign}\"c\")", steps(14))),
            case(format!("({}{sign}e)", steps(15)), 9, 0),
            case(format!("!(e{sign}{})", steps(15)), 9, 1),
            case(format!("!!({}{sign}{})", steps(8), steps(7)), 9, 2),
            case(format!("&:abc({}{sign}\"c\")", steps(15)), 9, 5),
        ]);
    }
    cases
}

fn brackets() -> Vec<RuleCase> {
    let inner = format!("({}=e)", steps(14));
    let long = format!("({}=e)", steps(15));
    vec![
        accepted(format!("(.[{inner}]{}=e)", steps(13))),
        case(format!("(.[{inner}]{}=e)", steps(14)), 9, 0),
        case(format!("([{long}]=e)"), 9, 2),
        // An outer comparison opens before an inner one.
        case(format!("(.[{long}]{}=e)", steps(14)), 9, 0),
        // The first of two.
        case(format!("&(e={})({}=e)", steps(15), steps(16)), 9, 1),
        // Empty paths, stars and choices are no steps.
        accepted(format!("(.e+e**{}=*e)", steps(14))),
    ]
}

fn first_of_several() -> Vec<RuleCase> {
    let deep = nots(32);
    let long = format!("({}=e)", steps(15));
    let many = balanced(33);
    let both = format!("&{long}{many}");
    vec![
        // 5 before all.
        case(format!("{deep}{}", "x".repeat(1_000)), 5, 0),
        // 6 before 7 only if its offset is lower; either before 8 and 9.
        case(format!("&{long}{deep}:a"), 7, long.len() + 32),
        case(format!("&{long}{many}!"), 6, long.len() + many.len() + 1),
        case(format!("&{many}{deep}:a"), 7, many.len() + 32),
        // 8 before 9, though its offset is higher. The `&` and the comparison
        // are tests 1 and 2, so the 65th is the third from the end.
        case(both.as_str(), 8, both.len() - "|:a:a".len()),
        case(format!("&{long}:a"), 9, 1),
        // 7 before 6: the part at nesting 33 begins before the rule goes wrong.
        case(format!("{deep}:a:a"), 7, 32),
    ]
}

/// Two things wrong, one in each test behind an `&`, then the other way round.
fn competing_pairs() -> Vec<RuleCase> {
    let wrong = ":a ";
    let deep = nots(32) + ":a";
    let many = balanced(65);
    let long = format!("({}=e)", steps(15));
    let pair = |first: &str, second: &str| format!("&{first}{second}");
    vec![
        // 6 and 7: the lower offset. The test behind the `&` begins one byte
        // later, but has nesting 2, so that nesting 33 is at 32 again.
        case(pair(wrong, &deep), 6, 3),
        case(pair(&deep, wrong), 7, 32),
        // 6 goes before 8 and 9 wherever it stands.
        case(pair(wrong, &many), 6, 3),
        case(pair(&many, wrong), 6, many.len() + 3),
        case(pair(wrong, &long), 6, 3),
        case(pair(&long, wrong), 6, long.len() + 3),
        // So does 7.
        case(pair(&deep, &many), 7, 32),
        case(pair(&many, &deep), 7, many.len() + 32),
        case(pair(&deep, &long), 7, 32),
        case(pair(&long, &deep), 7, long.len() + 32),
        // 8 goes before 9; the `&` and the comparison are tests as well.
        case(pair(&many, &long), 8, 1 + nth_test(&many, 64)),
        case(pair(&long, &many), 8, 1 + long.len() + nth_test(&many, 63)),
    ]
}

/// Where the test of this number begins in a rule of names joined by `|`.
fn nth_test(rule: &str, number: usize) -> usize {
    let begins = |(_, sign): &(usize, char)| "|:".contains(*sign);
    let mut tests = rule.char_indices().filter(begins);
    tests.nth(number - 1).expect("so many tests").0
}
