//! Request (f) of document 02: what is a numeral, its amount, and what holds
//! between two values.

use std::collections::BTreeMap;

use evaluator::amount::amount;
use evaluator::document;
use evaluator::meaning::compare;
use evaluator::random::{library, numeral, rule_about, Random};
use evaluator::rule::{Operand, Path, Sign, Test};
use evaluator::samples::counts::row;
use evaluator::text_order::{marks_differ, some_order_holds};
use evaluator::tree::Tree;
use evaluator::{backward, meaning};

/// Every text of up to so many of these bytes.
fn texts(bytes: &[u8], longest: usize) -> Vec<Vec<u8>> {
    let mut texts = vec![Vec::new()];
    let mut first = 0;
    for _ in 0..longest {
        let end = texts.len();
        for at in first..end {
            let longer = |byte: &u8| [&texts[at][..], &[*byte]].concat();
            let longer: Vec<Vec<u8>> = bytes.iter().map(longer).collect();
            texts.extend(longer);
        }
        first = end;
    }
    texts
}

#[test]
fn amounts_are_exact() {
    let cases = [
        ("0", 0),
        ("-0", 0),
        ("-0.0000", 0),
        ("1", 10_000),
        ("-1", -10_000),
        ("00012", 120_000),
        ("0.0001", 1),
        ("-0.0001", -1),
        ("0.1", 1_000),
        ("0.10", 1_000),
        ("0.100", 1_000),
        ("0.1000", 1_000),
        ("0.01", 100),
        ("0.001", 10),
        ("1.5", 15_000),
        ("1.50", 15_000),
        ("12.3456", 123_456),
        ("999999999", 9_999_999_990_000),
        ("999999999.9999", 9_999_999_999_999),
        ("-999999999.9999", -9_999_999_999_999),
        ("000000000.0000", 0),
    ];
    for (text, due) in cases {
        assert_eq!(amount(text.as_bytes()), Some(due), "{text}");
    }
}

#[test]
fn other_texts_have_no_amount() {
    for text in [
        "",
        "-",
        ".",
        "-.",
        "+1",
        ".5",
        "-.5",
        "1.",
        "-1.",
        "--1",
        "1-",
        "1.00000",
        "1234567890",
        "0000000001",
        "-1234567890",
        "1234567890.5",
        "1.5.",
        "1..5",
        "1.5.2",
        "1.-5",
        "1.+5",
        "1,5",
        "1e3",
        "0x1",
        "1_000",
        "1 000",
        " 1",
        "1 ",
        "- 1",
        "1. 5",
        "a",
        "1a",
        "a1",
        "/",
        ":",
        "infinity",
        "NaN",
        "\u{661}",
    ] {
        assert_eq!(amount(text.as_bytes()), None, "{text}");
    }
    assert_eq!(amount(&[b'1', 0xFF]), None);
}

/// All numerals of up to two digits and two decimals that have no others than
/// these, with their amounts: written out as the sentence says.
fn spelled(digits: &[u8]) -> BTreeMap<Vec<u8>, i64> {
    let strings = || {
        let one_or_two = |text: &Vec<u8>| !text.is_empty();
        texts(digits, 2).into_iter().filter(one_or_two)
    };
    let number = |text: &[u8]| text.iter().fold(0, |n, b| 10 * n + i64::from(b - b'0'));
    let mut all = BTreeMap::new();
    for whole in strings() {
        for (sign, minus) in [(1, &b""[..]), (-1, b"-")] {
            let units = sign * 10_000 * number(&whole);
            all.insert([minus, &whole].concat(), units);
            for decimals in strings() {
                let part = number(&decimals) * if decimals.len() == 1 { 1_000 } else { 100 };
                let text = [minus, &whole, b".", &decimals].concat();
                all.insert(text, units + sign * part);
            }
        }
    }
    all
}

#[test]
fn every_short_text_is_a_numeral_just_if_it_is_spelled_as_one() {
    let numerals = spelled(b"019");
    let mut found = 0;
    for text in texts(b"-.019+ a", 6) {
        let due = numerals.get(&text).copied();
        // What has more than two digits in a row is not written out.
        let long = text
            .split(|byte| !byte.is_ascii_digit())
            .any(|run| run.len() > 2);
        if long {
            continue;
        }
        assert_eq!(amount(&text), due, "{}", text.escape_ascii());
        found += usize::from(due.is_some());
    }
    assert_eq!(found, numerals.len());
    assert_eq!(numerals.len(), 2 * 12 * (1 + 12));
}

#[test]
fn one_digit_more_makes_no_numeral() {
    for most in 1..=12 {
        for decimals in 0..=7 {
            for sign in ["", "-"] {
                let point = if decimals == 0 { "" } else { "." };
                let text = format!("{sign}{}{point}{}", "7".repeat(most), "3".repeat(decimals));
                let due = most <= 9 && decimals <= 4;
                assert_eq!(amount(text.as_bytes()).is_some(), due, "{text}");
            }
        }
    }
}

/// Spellings of one amount stand in one row, and amounts rise.
const RISING: [&[&str]; 14] = [
    &["-999999999.9999"],
    &["-999999999", "-999999999.0"],
    &["-10", "-010", "-10.0"],
    &["-9.5", "-9.50", "-09.5000"],
    &["-9"],
    &["-0.0001"],
    &["0", "-0", "-0.0", "00", "0.0000", "-000000000.0000"],
    &["0.0001"],
    &["1.4999"],
    &["1.5", "1.50", "01.5", "000000001.5"],
    &["9", "09"],
    &["10", "10.0000", "000000010"],
    &["999999999"],
    &["999999999.9999"],
];

#[test]
fn numerals_compare_by_amount_and_as_text_for_equality() {
    let all: Vec<(usize, &str)> = RISING
        .iter()
        .enumerate()
        .flat_map(|(at, spellings)| spellings.iter().map(move |text| (at, *text)))
        .collect();
    for (i, a) in &all {
        for (j, b) in &all {
            let holds = |sign| compare(sign, a.as_bytes(), b.as_bytes());
            assert_eq!(holds(Sign::Equal), a == b, "{a} {b}");
            assert_eq!(holds(Sign::Unequal), a != b, "{a} {b}");
            assert_eq!(holds(Sign::Less), i < j, "{a} {b}");
            assert_eq!(holds(Sign::LessOrEqual), i <= j, "{a} {b}");
            assert_eq!(holds(Sign::Greater), i > j, "{a} {b}");
            assert_eq!(holds(Sign::GreaterOrEqual), i >= j, "{a} {b}");
        }
    }
}

#[test]
fn no_order_sign_holds_where_one_is_no_numeral() {
    let words = ["", "a", "heparin", "1.", ".5", "+1", "1.00000", "1 2", "~"];
    let others: Vec<&str> = RISING.concat().into_iter().chain(words).collect();
    for word in words {
        for other in &others {
            for (a, b) in [(word, *other), (*other, word)] {
                for sign in Sign::ALL {
                    let due = match sign {
                        Sign::Equal => a == b,
                        Sign::Unequal => a != b,
                        _ => false,
                    };
                    let holds = compare(sign, a.as_bytes(), b.as_bytes());
                    assert_eq!(holds, due, "{a} {sign:?} {b}");
                }
            }
        }
    }
}

/// By both meanings, with constants and between two paths, every two of the
/// short texts.
#[test]
fn both_meanings_compare_every_two_short_texts_alike() {
    let texts: Vec<String> = texts(b"-.19a", 3)
        .into_iter()
        .map(|text| String::from_utf8(text).expect("ASCII"))
        .collect();
    // The root has the empty value, as the first text.
    let tree = Tree::of(&document::read(&row(&texts[1..])).expect("a legal document"));
    let values: Vec<&[u8]> = (0..tree.size()).map(|v| tree.compared(v)).collect();
    assert_eq!(values.len(), texts.len());
    for sign in Sign::ALL {
        for constant in &texts {
            let operand = Operand::Constant(constant.clone().into_bytes());
            let test = Test::Compare(Path::Empty, sign, operand);
            let compared = |a: &&[u8]| compare(sign, a, constant.as_bytes());
            let due: Vec<bool> = values.iter().map(compared).collect();
            assert_eq!(backward::holds(&tree, &test), due, "{sign:?} {constant}");
        }
        let test = Test::Compare(Path::Empty, sign, Operand::Path(Path::Right));
        let pair = |v: usize| v > 0 && v + 1 < values.len();
        let due: Vec<bool> = (0..values.len())
            .map(|v| pair(v) && compare(sign, values[v], values[v + 1]))
            .collect();
        assert_eq!(meaning::holds(&tree, &test), due, "{sign:?}");
        assert_eq!(backward::holds(&tree, &test), due, "{sign:?}");
    }
}

#[test]
fn random_numerals_are_numerals_of_every_length() {
    let random = &mut Random::new(1);
    let (mut lengths, mut negative) = (BTreeMap::new(), 0);
    for _ in 0..20_000 {
        let text = numeral(random);
        let amount = amount(&text);
        assert!(amount.is_some(), "{}", text.escape_ascii());
        let unsigned = text.strip_prefix(b"-").unwrap_or(&text);
        let whole = unsigned.iter().take_while(|byte| **byte != b'.').count();
        let behind = unsigned.len() - whole;
        *lengths.entry((whole, behind)).or_insert(0) += 1;
        negative += usize::from(amount < Some(0));
    }
    // 1 to 9 digits, no point or a point with 1 to 4.
    assert_eq!(lengths.len(), 9 * 5, "{lengths:?}");
    assert!(negative > 2_000, "{negative}");
}

#[test]
fn what_would_hold_by_text_is_told_apart() {
    let library = document::read(&row(&["9", "10", "a", "b"])).expect("a legal document");
    for (rule, differs) in [
        ("(e<r)", true),
        ("(e<\"9\")", true),
        ("(e<\"a\")", true),
        ("(e>\"8\")", true),
        ("(e<\"11\")", true),
        ("(e=r)", false),
        ("(e!=\"9\")", false),
        ("(e>\"b\")", false),
    ] {
        let test = evaluator::reader::read(rule.as_bytes());
        assert_eq!(marks_differ(&library, &test), differs, "{rule}");
    }
}

#[test]
fn order_signs_hold_often_on_random_pairs_and_differ_from_the_order_of_texts() {
    let (mut held, mut differ) = (0, 0);
    const CASES: u64 = 3_600;
    for seed in 0..CASES {
        let random = &mut Random::new(seed);
        let nodes = 2 + random.below(20);
        let library = library(random, nodes);
        let tree = Tree::of(&library);
        let rule = rule_about(random, 10, &tree.values);
        held += usize::from(some_order_holds(&tree, &rule));
        differ += usize::from(marks_differ(&library, &rule));
    }
    println!("an order sign held in {held}, marks differ by text in {differ} of {CASES}");
    assert!(held > 500 && differ > 500, "{held}, {differ}");
}
