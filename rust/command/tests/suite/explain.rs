//! `yurzhoad explain RULE`, letter by letter.

use crate::desk::{accepted, Desk};

fn assert_explained(rule: &str, lines: &[&str]) {
    let due = lines.join("\n") + "\n";
    assert_eq!(Desk::new().run(["explain", rule]), accepted(&due), "{rule}");
}

#[test]
fn a_name() {
    assert_explained(
        ":drug",
        &[
            "A node is selected if",
            "0  the label is `drug`",
            "",
            "1 test of 64, nesting 1 of 32, no comparison or count",
        ],
    );
}

#[test]
fn the_session() {
    assert_explained(
        "(.l[:name]=..r*rl)",
        &[
            "A node is selected if",
            " 0  equality: some node reached by the first path has the same value as some node \
             reached by the second",
            " 1    first path: one after the other:",
            " 2      to the first node inside, attributes included",
            " 3      stay at the node if",
            " 4        the label is `name`",
            "11    second path: one after the other:",
            "12      one after the other:",
            "13        to the next sibling",
            "14        zero or more times:",
            "15          to the next sibling",
            "16      to the first node inside, attributes included",
            "",
            "2 tests of 64, nesting 5 of 32, 5 steps of 14",
        ],
    );
}

#[test]
fn tests_joined_and_denied() {
    assert_explained(
        "&:drug!|:a-1(e=\"\")",
        &[
            "A node is selected if",
            " 0  both of these hold:",
            " 1    the label is `drug`",
            " 6    this does not hold:",
            " 7      at least one of these holds:",
            " 8        the label is `a-1`",
            "12        equality: some node reached by the path has the value \"\" (empty)",
            "13          path: stay at the node",
            "",
            "6 tests of 64, nesting 5 of 32, 0 steps of 14",
        ],
    );
}

#[test]
fn the_ways_up_and_either_of_them() {
    assert_explained(
        "(+L.R[(l!=\"5 mg/ml\")]>=*e)",
        &[
            "A node is selected if",
            " 0  greater or equal: some node reached by the first path has a value greater than \
             or equal to that of some node reached by the second, compared by amount: 9 is less \
             than 10; it fails on values that are no numerals",
            " 1    first path: either of these:",
            " 2      from the first node inside back to the element around it",
            " 3      one after the other:",
            " 4        back to the sibling before",
            " 5        stay at the node if",
            " 6          inequality: some node reached by the path has another value than \
             \"5 mg/ml\"",
            " 7            path: to the first node inside, attributes included",
            "23    second path: zero or more times:",
            "24      stay at the node",
            "",
            "2 tests of 64, nesting 6 of 32, steps of 14: 3 at 0, 1 at 6",
        ],
    );
}

/// A sign, its name, and its words before a node and before a constant.
const SIGNS: [(&str, &str, &str, &str); 6] = [
    ("=", "equality", "has the same value as", "has the value"),
    (
        "!=",
        "inequality",
        "has another value than",
        "has another value than",
    ),
    (
        "<",
        "less",
        "has a value less than that of",
        "has a value less than",
    ),
    (
        "<=",
        "less or equal",
        "has a value less than or equal to that of",
        "has a value less than or equal to",
    ),
    (
        ">",
        "greater",
        "has a value greater than that of",
        "has a value greater than",
    ),
    (
        ">=",
        "greater or equal",
        "has a value greater than or equal to that of",
        "has a value greater than or equal to",
    ),
];

#[test]
fn every_sign_before_a_path_and_before_a_constant() {
    for (sign, name, to_node, to_constant) in SIGNS {
        let note = match sign {
            "=" | "!=" => "",
            _ => ", compared by amount: 9 is less than 10; it fails on values that are no numerals",
        };
        let second = 2 + sign.len();
        assert_explained(
            &format!("(l{sign}r)"),
            &[
                "A node is selected if",
                &format!(
                    "0  {name}: some node reached by the first path {to_node} some node reached \
                     by the second{note}"
                ),
                "1    first path: to the first node inside, attributes included",
                &format!("{second}    second path: to the next sibling"),
                "",
                "1 test of 64, nesting 2 of 32, 2 steps of 14",
            ],
        );
        assert_explained(
            &format!("(l{sign}\"10\")"),
            &[
                "A node is selected if",
                &format!("0  {name}: some node reached by the path {to_constant} \"10\"{note}"),
                "1    path: to the first node inside, attributes included",
                "",
                "1 test of 64, nesting 2 of 32, 1 step of 14",
            ],
        );
    }
}

/// A constant as it is written, and how it is told.
const PADDED: [(&str, &str); 7] = [
    ("  heparin", "\"heparin\" (blanks at the ends do not count)"),
    ("heparin ", "\"heparin\" (blanks at the ends do not count)"),
    (" 5  mg  ", "\"5  mg\" (blanks at the ends do not count)"),
    ("   ", "\"\" (empty: blanks at the ends do not count)"),
    (" ", "\"\" (empty: blanks at the ends do not count)"),
    ("5  mg", "\"5  mg\""),
    ("", "\"\" (empty)"),
];

#[test]
fn a_constant_is_told_without_the_blanks_at_its_ends() {
    for (constant, told) in PADDED {
        assert_explained(
            &format!("(e=\"{constant}\")"),
            &[
                "A node is selected if",
                &format!("0  equality: some node reached by the path has the value {told}"),
                "1    path: stay at the node",
                "",
                "1 test of 64, nesting 2 of 32, 0 steps of 14",
            ],
        );
    }
}

/// The offsets are those of the rule as it is written.
#[test]
fn blanks_count_where_a_part_begins() {
    assert_explained(
        "|(e!=\"  a \"):b",
        &[
            "A node is selected if",
            " 0  at least one of these holds:",
            " 1    inequality: some node reached by the path has another value than \"a\" \
             (blanks at the ends do not count)",
            " 2      path: stay at the node",
            "12    the label is `b`",
            "",
            "3 tests of 64, nesting 3 of 32, 0 steps of 14",
        ],
    );
}

#[test]
fn blanks_at_the_ends_are_told_before_the_order() {
    assert_explained(
        "(l<\" 10 \")",
        &[
            "A node is selected if",
            "0  less: some node reached by the path has a value less than \"10\" (blanks at the \
             ends do not count), compared by amount: 9 is less than 10; it fails on values that \
             are no numerals",
            "1    path: to the first node inside, attributes included",
            "",
            "1 test of 64, nesting 2 of 32, 1 step of 14",
        ],
    );
}

/// Constants with which no order sign ever holds, and others.
const NO_NUMERALS: [&str; 12] = [
    "heparin",
    "",
    " ",
    "5 mg",
    ".5",
    "1.",
    "+1",
    "--1",
    "-",
    "1.00000",
    "1234567890",
    "1,5",
];
const NUMERALS: [&str; 9] = [
    "0",
    "-0",
    "00012",
    "1.5",
    "-1.2345",
    "999999999.9999",
    "123456789",
    " 7",
    "7 ",
];

#[test]
fn a_constant_that_is_no_numeral_is_told_with_the_order_signs() {
    let never = "compared by amount: it never holds, since the constant is no numeral";
    let explained = |sign: &str, constant: &str| {
        let rule = format!("(e{sign}\"{constant}\")");
        Desk::new().run(["explain", rule.as_str()]).out
    };
    for sign in ["<", "<=", ">", ">="] {
        for constant in NO_NUMERALS {
            let out = explained(sign, constant);
            assert!(out.contains(never), "{out}");
            assert!(!out.contains("9 is less than 10"), "{out}");
        }
        for constant in NUMERALS {
            let out = explained(sign, constant);
            assert!(
                !out.contains("never") && out.contains("9 is less than 10"),
                "{out}"
            );
        }
    }
    for sign in ["=", "!="] {
        for constant in NO_NUMERALS.iter().chain(&NUMERALS) {
            assert!(!explained(sign, constant).contains("amount"), "{constant}");
        }
    }
}

#[test]
fn the_case_m_that_marks_nothing() {
    assert_explained(
        "(e<\"a\")",
        &[
            "A node is selected if",
            "0  less: some node reached by the path has a value less than \"a\", compared by \
             amount: it never holds, since the constant is no numeral",
            "1    path: stay at the node",
            "",
            "1 test of 64, nesting 2 of 32, 0 steps of 14",
        ],
    );
}

/// A constant may hold what looks like a rule.
#[test]
fn a_constant_is_no_part() {
    assert_explained(
        "(e=\"):a!=(l<'`\")",
        &[
            "A node is selected if",
            "0  equality: some node reached by the path has the value \"):a!=(l<'`\"",
            "1    path: stay at the node",
            "",
            "1 test of 64, nesting 2 of 32, 0 steps of 14",
        ],
    );
}

/// A number of nodes, and how it is told.
const COUNTED: [(&str, &str); 5] = [
    ("0", "0 nodes, which holds everywhere"),
    ("1", "1 node"),
    ("2", "2 different nodes"),
    ("10", "10 different nodes"),
    ("4096", "4096 different nodes"),
];

#[test]
fn counts_of_every_number() {
    for (number, told) in COUNTED {
        let path = 1 + number.len();
        assert_explained(
            &format!("#{number}l"),
            &[
                "A node is selected if",
                &format!("0  count: the path reaches at least {told}"),
                &format!("{path}    path: to the first node inside, attributes included"),
                "",
                "1 test of 64, nesting 2 of 32, 1 step of 14",
            ],
        );
    }
}

/// At least three concentrations, each with a limit.
#[test]
fn a_count_with_tests_around_it_and_inside() {
    assert_explained(
        "&:drug#3..l*r[&:concentration#1.l[(e<=\"5\")]]",
        &[
            "A node is selected if",
            " 0  both of these hold:",
            " 1    the label is `drug`",
            " 6    count: the path reaches at least 3 different nodes",
            " 8      path: one after the other:",
            " 9        one after the other:",
            "10          to the first node inside, attributes included",
            "11          zero or more times:",
            "12            to the next sibling",
            "13        stay at the node if",
            "14          both of these hold:",
            "15            the label is `concentration`",
            "29            count: the path reaches at least 1 node",
            "31              path: one after the other:",
            "32                to the first node inside, attributes included",
            "33                stay at the node if",
            "34                  less or equal: some node reached by the path has a value less \
             than or equal to \"5\", compared by amount: 9 is less than 10; it fails on values \
             that are no numerals",
            "35                    path: stay at the node",
            "",
            "7 tests of 64, nesting 10 of 32, steps of 14: 3 at 6, 2 at 29, 0 at 34",
        ],
    );
}
