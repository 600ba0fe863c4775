//! Numerals and their amounts one by one: every short text as a value, against
//! constants and against every other, numerals of every length, texts cut in
//! every place, and many spellings of few amounts.

use crate::evaluation_agreement::assert_due;
use evaluator::amount::amount;
use evaluator::document::NODE_LIMIT;
use evaluator::meaning::compare;
use evaluator::random::{numeral, numeral_or_nearly, Random};
use evaluator::rule::Sign;
use evaluator::samples::counts::row;
use evaluator::samples::document;
use evaluator::tree::trimmed;

/// What may stand in a numeral, and what may not.
const BYTES: &str = "-.019 a";

const ORDER: [Sign; 4] = [
    Sign::Less,
    Sign::LessOrEqual,
    Sign::Greater,
    Sign::GreaterOrEqual,
];

/// Every text of up to so many of these bytes.
fn texts(bytes: &str, longest: usize) -> Vec<String> {
    let mut texts = vec![String::new()];
    let mut shorter = texts.clone();
    for _ in 0..longest {
        let longer = |text: &String| -> Vec<String> {
            bytes.chars().map(|byte| format!("{text}{byte}")).collect()
        };
        shorter = shorter.iter().flat_map(longer).collect();
        texts.extend(shorter.clone());
    }
    texts
}

fn sign_text(sign: Sign) -> &'static str {
    std::str::from_utf8(sign.spell()).expect("ASCII")
}

/// Whether two texts are in the relation once they are cut, by the evaluator.
fn holds(sign: Sign, a: &str, b: &str) -> bool {
    compare(sign, trimmed(a.as_bytes()), trimmed(b.as_bytes()))
}

/// The attributes of a row begin at node 1; the root has the empty value.
fn value_at(values: &[String], node: usize) -> &str {
    match node {
        0 => "",
        _ => &values[node - 1],
    }
}

#[test]
fn every_text_of_up_to_five_bytes_beside_constants() {
    let constants = [
        "0", "1", "-0.10", "9.9", " 19 ", "001", "-9", "10.", ".1", "", "a", "-",
    ];
    let texts = texts(BYTES, 5);
    assert_eq!(texts.len(), 19_608);
    let mut marked = 0;
    for values in texts.chunks(NODE_LIMIT - 1) {
        let document = row(values);
        for constant in constants {
            for sign in ORDER {
                let rule = format!("(e{}\"{constant}\")", sign_text(sign));
                let due = |v| holds(sign, value_at(values, v), constant);
                marked += assert_due(&document, &rule, due);
            }
        }
        // A value is a numeral just if `<=` holds between it and itself.
        let is_numeral = |v| amount(trimmed(value_at(values, v).as_bytes())).is_some();
        marked += assert_due(&document, "(e<=e)", is_numeral);
    }
    println!("{marked} marked");
    assert!(marked > 10_000, "{marked}");
}

#[test]
fn every_two_texts_of_up_to_three_bytes_as_value_and_constant() {
    let texts = texts(BYTES, 3);
    let document = row(&texts);
    for constant in &texts {
        for sign in Sign::ALL {
            let rule = format!("(e{}\"{constant}\")", sign_text(sign));
            let due = |v| holds(sign, value_at(&texts, v), constant);
            assert_due(&document, &rule, due);
        }
    }
}

#[test]
fn every_two_texts_of_up_to_three_bytes_beside_each_other() {
    let texts = texts("-.19 ", 3);
    // Each before and behind each other one.
    let beside =
        |a: &String| -> Vec<String> { texts.iter().flat_map(|b| [a.clone(), b.clone()]).collect() };
    let all: Vec<String> = texts.iter().flat_map(beside).collect();
    let mut marked = 0;
    // The last of a chunk is the first of the next, so that no two are missed.
    let most = NODE_LIMIT - 1;
    for first in (0..all.len()).step_by(most - 1) {
        let values = &all[first..all.len().min(first + most)];
        let document = row(values);
        for sign in Sign::ALL {
            let rule = format!("(e{}r)", sign_text(sign));
            let due = |v: usize| {
                let pair = v > 0 && v < values.len();
                pair && holds(sign, &values[v - 1], &values[v])
            };
            marked += assert_due(&document, &rule, due);
        }
    }
    println!("{marked} marked");
    assert!(marked > 50_000, "{marked}");
}

/// Numerals, and texts of more digits than one has.
fn of_every_length() -> Vec<String> {
    let mut values = Vec::new();
    for (whole, decimals) in (1..=12).flat_map(|whole| (0..=7).map(move |some| (whole, some))) {
        let point = if decimals == 0 { "" } else { "." };
        for digit in ["0", "1", "9"] {
            let text = format!("{}{point}{}", digit.repeat(whole), digit.repeat(decimals));
            values.push(format!("-{text}"));
            values.push(text);
        }
    }
    values
}

#[test]
fn numerals_of_every_length() {
    let values = of_every_length();
    let document = row(&values);
    let counts = |value: &String| {
        let digits = value.trim_start_matches('-');
        let (whole, decimals) = digits.split_once('.').unwrap_or((digits, ""));
        whole.len() <= 9 && decimals.len() <= 4
    };
    let is_numeral = |v: usize| v > 0 && counts(&values[v - 1]);
    assert_eq!(assert_due(&document, "(e<=e)", is_numeral), 2 * 3 * 9 * 5);
    for constant in &values {
        for sign in ORDER {
            let rule = format!("(e{}\"{constant}\")", sign_text(sign));
            let due = |v| holds(sign, value_at(&values, v), constant);
            let marked = assert_due(&document, &rule, due);
            assert!(counts(constant) || marked == 0, "{rule}");
        }
    }
}

/// The text cut in two and in three in every place, pieces may be empty.
fn cuts(text: &str) -> Vec<Vec<&str>> {
    let places = || 0..=text.len();
    let two = places().map(|at| vec![&text[..at], &text[at..]]);
    let three = places()
        .flat_map(|a| (a..=text.len()).map(move |b| vec![&text[..a], &text[a..b], &text[b..]]));
    two.chain(three).collect()
}

#[test]
fn numerals_joined_from_texts_cut_in_every_place() {
    for whole in [
        "10",
        "-12.50",
        "999999999.9999",
        "-999999999.9999",
        "1234567890",
        "1.00000",
        "  7.5  ",
        "7 5",
        "--1",
    ] {
        let mut rows = vec![('e', 0, "lib", "")];
        let mut joined = vec![""];
        for pieces in cuts(whole) {
            rows.push(('e', 1, "drug", ""));
            joined.push(whole);
            // An attribute is no part of an element's value.
            rows.push(('a', 2, "name", "3"));
            rows.extend(pieces.iter().map(|piece| ('t', 2, "text", *piece)));
            joined.resize(rows.len(), "");
        }
        let document = document(&rows);
        for (sign, constant) in ORDER
            .iter()
            .flat_map(|s| ["10", "-13", whole].map(|c| (s, c)))
        {
            let rule = format!("&:drug(e{}\"{constant}\")", sign_text(*sign));
            let due = |v: usize| rows[v].2 == "drug" && holds(*sign, joined[v], constant);
            assert_due(&document, &rule, due);
        }
        let is_numeral = amount(trimmed(whole.as_bytes())).is_some();
        let due = |v: usize| rows[v].2 == "drug" && is_numeral;
        assert_due(&document, "&:drug(e>=e)", due);
    }
}

/// For each node of a row whether some value behind it is in the relation to its
/// own, worked out by the amounts alone.
fn some_behind(amounts: &[Option<i64>], related: fn(i64, i64) -> bool) -> Vec<bool> {
    let behind = |at: usize| amounts[at + 1..].iter().flatten();
    let holds = |at: usize| amounts[at].is_some_and(|own| behind(at).any(|b| related(own, *b)));
    (0..amounts.len()).map(holds).collect()
}

type Related = (&'static str, fn(i64, i64) -> bool);

const RELATED: [Related; 4] = [
    ("<", |a, b| a < b),
    ("<=", |a, b| a <= b),
    (">", |a, b| a > b),
    (">=", |a, b| a >= b),
];

/// Asserts what the order signs mark on a row of these values, with the values
/// behind a node and with those before it.
fn assert_ordered_row(values: &[String]) {
    let document = row(values);
    let own = |value: &String| amount(trimmed(value.as_bytes()));
    let mut amounts: Vec<Option<i64>> = values.iter().map(own).collect();
    for (sign, related) in RELATED {
        let due = some_behind(&amounts, related);
        let rule = format!("(e{sign}.r*r)");
        assert_due(&document, &rule, |v| v > 0 && due[v - 1]);
    }
    amounts.reverse();
    for (sign, related) in RELATED {
        let due = some_behind(&amounts, related);
        let rule = format!("(e{sign}.R*R)");
        assert_due(&document, &rule, |v| v > 0 && due[values.len() - v]);
    }
}

#[test]
fn many_spellings_of_few_amounts() {
    let spelled = |number: usize| {
        let minus = ["", "-"][number / 7 % 2];
        let zeros = "0".repeat(number / 14 % 6);
        let decimals = ["", ".0", ".5", ".50", ".0000", ".5000"][number / 84 % 6];
        format!("{minus}{zeros}{}{decimals}", number % 7)
    };
    // 504 spellings by turns, in no simple order.
    let values: Vec<String> = (0..NODE_LIMIT - 1)
        .map(|number| spelled(number * 2_531 % NODE_LIMIT))
        .collect();
    assert_ordered_row(&values);
}

#[test]
fn random_rows_of_numerals_and_others() {
    let mut found = 0;
    // Other seeds than those of the other tests.
    for seed in 7_000_000..7_000_060 {
        println!("seed {seed}");
        let random = &mut Random::new(seed);
        let most = *random.pick(&[20, 200, 2_000, NODE_LIMIT - 1]);
        let count = 1 + random.below(most);
        let share = *random.pick(&[5, 50, 100]);
        let draw = |_| {
            let text = match random.percent(share) {
                true => numeral(random),
                false => numeral_or_nearly(random),
            };
            String::from_utf8(text).expect("ASCII")
        };
        let values: Vec<String> = (0..count).map(draw).collect();
        assert_ordered_row(&values);
        found += values.len();
    }
    println!("{found} values");
    assert!(found > 10_000, "{found}");
}

#[test]
fn amounts_that_rise_and_that_fall() {
    let amounts = |number: usize| format!("{}.{:04}", number / 3, number % 3 * 4_000);
    let rising: Vec<String> = (0..NODE_LIMIT - 1).map(amounts).collect();
    let falling: Vec<String> = rising.iter().rev().cloned().collect();
    let below_zero: Vec<String> = rising.iter().map(|value| format!("-{value}")).collect();
    for values in [rising, falling, below_zero] {
        assert_ordered_row(&values);
    }
}
