//! Evaluations at the limits: 64 tests, nesting 32, 14 steps, 1,024 bytes, and
//! the longest labels, values and constants.

use crate::evaluation_agreement::{assert_agreement, assert_marked, needed};
use evaluator::document::spell;
use evaluator::random::{library, Random};
use evaluator::samples::counts::row;
use evaluator::samples::rules::constants;
use evaluator::samples::{document, name};

/// Different leaves joined by one sign two and two.
fn joined(sign: &str, leaves: &[String]) -> String {
    match leaves {
        [leaf] => leaf.clone(),
        _ => {
            let (first, second) = leaves.split_at(leaves.len() / 2);
            format!("{sign}{}{}", joined(sign, first), joined(sign, second))
        }
    }
}

/// All other nodes of so many.
fn others(nodes: usize, marked: &[usize]) -> Vec<usize> {
    (0..nodes).filter(|v| !marked.contains(v)).collect()
}

#[test]
fn each_of_64_tests_counts() {
    let values: Vec<String> = (0..40).map(|number| format!("v{number}")).collect();
    let document = row(&values);
    let marked: Vec<usize> = (1..=32).collect();
    let leaves = |leaf: &dyn Fn(&str) -> String, count: usize| -> Vec<String> {
        values[..count].iter().map(|value| leaf(value)).collect()
    };
    // 32 comparisons and 31 signs: each comparison marks another node.
    let plain = joined("|", &leaves(&|value| format!("(e=\"{value}\")"), 32));
    assert_marked("63 tests", &document, plain.as_bytes(), needed(1), &marked);
    let denied = format!("!{plain}");
    let rest = others(41, &marked);
    assert_marked("64 tests", &document, denied.as_bytes(), needed(2), &rest);
    // 21 with a test in a bracket each: 21 * 2 + 20 and two more.
    let bracketed: Vec<String> = (0..21)
        .map(|number| format!("([:{}]=\"{}\")", name(number), values[number]))
        .collect();
    let rule = format!("!!{}", joined("|", &bracketed));
    assert_marked(
        "64 tests",
        &document,
        rule.as_bytes(),
        needed(3),
        &marked[..21],
    );
    // All but one hold nowhere; the one may be any of them.
    for only in 0..32 {
        let mut names = vec![":no".to_string(); 32];
        names[only] = "(e=\"v7\")".to_string();
        let rule = joined("|", &names);
        assert_marked("one of 32", &document, rule.as_bytes(), needed(4), &[8]);
        let mut names = vec!["(e!=\"no\")".to_string(); 32];
        names[only] = "(e=\"v7\")".to_string();
        let rule = joined("&", &names);
        assert_marked("one of 32", &document, rule.as_bytes(), needed(5), &[8]);
    }
}

#[test]
fn each_of_many_counts_counts() {
    let values: Vec<String> = (0..40).map(|number| format!("v{number}")).collect();
    let document = row(&values);
    // From node v of the row 41 - v nodes are reached.
    let all = ["#4096*r".to_string(), "#0*r".to_string()];
    for (only, number) in (0..32).map(|only| (only, 5 + only)) {
        let reached: Vec<usize> = (1..=41 - number).collect();
        let mut leaves = vec![all[0].clone(); 32];
        leaves[only] = format!("#{number}*r");
        let rule = joined("|", &leaves);
        assert_marked("63 tests", &document, rule.as_bytes(), needed(1), &reached);
        let rest = others(41, &reached);
        let rule = format!("!{rule}");
        assert_marked("64 tests", &document, rule.as_bytes(), needed(2), &rest);
        let mut leaves = vec![all[1].clone(); 32];
        leaves[only] = format!("#{number}*r");
        let rule = joined("&", &leaves);
        assert_marked("63 tests", &document, rule.as_bytes(), needed(3), &reached);
    }
    // Just so many: twelve numbers in 24 counts and 59 tests.
    let exactly = |number: usize| format!("&#{number}*r!#{}*r", number + 1);
    let leaves: Vec<String> = (1..=12).map(|number| exactly(3 * number)).collect();
    let due: Vec<usize> = (1..=12).rev().map(|number| 41 - 3 * number).collect();
    let rule = joined("|", &leaves);
    assert_marked("59 tests", &document, rule.as_bytes(), needed(4), &due);
}

#[test]
fn nesting_32_of_tests_paths_and_brackets() {
    let document = row(&["a", "b", "a"]);
    for (count, due) in [(30, &[0][..]), (31, &[1, 2, 3])] {
        let rule = format!("{}:lib", "!".repeat(count));
        assert_marked("denials", &document, rule.as_bytes(), needed(1), due);
    }
    let stars = "*".repeat(30);
    let rule = format!("({stars}r=\"b\")");
    assert_marked("stars", &document, rule.as_bytes(), needed(2), &[1, 2]);
    let sequence = ".e".repeat(30);
    let rule = format!("({sequence}r!=e)");
    assert_marked("sequence", &document, rule.as_bytes(), needed(3), &[1, 2]);
    let choice = "+r".repeat(13);
    let rule = format!("({choice}r=\"b\")");
    assert_marked("choice", &document, rule.as_bytes(), needed(4), &[1]);
    // Two parts for each bracket and its comparison, one or two inside.
    let insides = [
        (":lib", &[0][..]),
        ("!:lib", &[1, 2, 3]),
        ("(e=\"a\")", &[1, 3]),
    ];
    for (inside, due) in insides {
        let (before, behind) = ("([".repeat(15), "]=e)".repeat(15));
        let rule = format!("{before}{inside}{behind}");
        assert_marked("brackets", &document, rule.as_bytes(), needed(5), due);
    }
    let rule = format!("#2{stars}r");
    assert_marked("stars", &document, rule.as_bytes(), needed(2), &[1, 2]);
    for (inside, due) in insides {
        let (before, behind) = ("#1[".repeat(15), "]".repeat(15));
        let rule = format!("{before}{inside}{behind}");
        assert_marked("counts", &document, rule.as_bytes(), needed(5), due);
        let (before, behind) = ("#1[([".repeat(7), "]=e)]".repeat(7));
        let rule = format!("{before}{inside}{behind}");
        assert_marked("both", &document, rule.as_bytes(), needed(5), due);
    }
    // Each bracket takes one node off the end of the row.
    let values: Vec<String> = (0..20).map(|number| format!("v{number}")).collect();
    let (before, behind) = ("(.r[".repeat(10), "]!=\"no\")".repeat(10));
    let rule = format!("{before}!:lib{behind}");
    let due: Vec<usize> = (1..=10).collect();
    assert_marked("steps", &row(&values), rule.as_bytes(), needed(6), &due);
}

/// So many steps of all kinds, beginning with this one.
fn steps_of_all_kinds(first: usize, count: usize) -> Vec<String> {
    let kinds = ["l", "r", "[(*r!=e)]", "R", "L", "[!:drug]", "*r", "*L"];
    let step = |number: usize| kinds[(first + number) % kinds.len()].to_string();
    (0..count).map(step).collect()
}

/// A path of these steps in a sequence, a choice, or a choice again and again.
fn path(form: &str, steps: &[String]) -> String {
    match steps {
        [] => "e".to_string(),
        _ => match form {
            "*+" => format!("*{}", joined("+", steps)),
            "." => {
                // A sequence of many steps leads nowhere; each may be left out.
                let steps: Vec<String> = steps.iter().map(|s| format!("+e{s}")).collect();
                joined(".", &steps)
            }
            _ => joined(form, steps),
        },
    }
}

#[test]
fn up_to_14_steps_on_either_side() {
    // Few, since many steps take the evaluator long.
    const NODES: usize = 20;
    let mut some = 0;
    for seed in 0..4 {
        let random = &mut Random::new(seed);
        let document = spell(&library(random, NODES));
        for (count, first) in (12..=14).flat_map(|all| (0..=all).map(move |first| (all, first))) {
            for form in [".", "+", "*+"] {
                let p = path(form, &steps_of_all_kinds(first, first));
                let r = path(form, &steps_of_all_kinds(seed as usize, count - first));
                for sign in ["=", "!=", "<", "<=", ">", ">="] {
                    let rule = format!("({p}{sign}{r})");
                    let origin = format_args!("seed {seed}, {count} steps");
                    let outcome =
                        assert_agreement(origin, &document, rule.as_bytes(), needed(seed));
                    assert_eq!(outcome.number, 0, "{rule}");
                    some += usize::from(outcome.selected > 0 && outcome.selected < NODES);
                }
            }
        }
    }
    assert!(some > 500, "{some} marked some nodes and not all");
}

#[test]
fn counts_of_up_to_14_steps() {
    const NODES: usize = 20;
    let (mut some, mut above) = (0, 0);
    for seed in 0..6 {
        let random = &mut Random::new(seed);
        let document = spell(&library(random, NODES));
        for count in 0..=14 {
            for form in [".", "+", "*+"] {
                let path = path(form, &steps_of_all_kinds(seed as usize + count, count));
                for number in [1, 2, 3, 5, 9] {
                    let rule = format!("#{number}{path}");
                    let origin = format_args!("seed {seed}, {count} steps");
                    let outcome =
                        assert_agreement(origin, &document, rule.as_bytes(), needed(seed));
                    assert_eq!(outcome.number, 0, "{rule}");
                    let marked = outcome.selected > 0 && outcome.selected < NODES;
                    some += usize::from(marked);
                    above += usize::from(marked && number > 2);
                }
            }
        }
    }
    println!("{some} marked some nodes and not all, {above} with numbers above 2");
    assert!(some > 400 && above > 200, "{some}, {above}");
}

#[test]
fn fourteen_steps_reach_just_so_far() {
    // A row of 30: 14 steps to the right and none the other way, and so on.
    let values: Vec<String> = (0..30)
        .map(|number| format!("v{:02}", number % 10))
        .collect();
    let document = row(&values);
    for first in 0..=14 {
        let (p, r) = (path_of("r", first), path_of("r", 14 - first));
        // Equal where the two are ten apart, or the same.
        let due: Vec<usize> = match first {
            7 => (1..=23).collect(),
            2 | 12 => (1..=18).collect(),
            _ => Vec::new(),
        };
        let rule = format!("({p}={r})");
        assert_marked(
            "row",
            &document,
            rule.as_bytes(),
            needed(first as u64),
            &due,
        );
    }
    for (p, due) in [(path_of("r", 14), 1..=16), (path_of("R", 14), 15..=30)] {
        let due: Vec<usize> = due.collect();
        let rule = format!("({p}!=\"no\")");
        assert_marked("row", &document, rule.as_bytes(), needed(20), &due);
        let rule = format!("(e!={p})");
        assert_marked("row", &document, rule.as_bytes(), needed(21), &due);
    }
}

/// So many equal steps one after the other.
fn path_of(step: &str, count: usize) -> String {
    match count {
        0 => "e".to_string(),
        _ => format!(".{step}").repeat(count - 1) + step,
    }
}

#[test]
fn the_longest_rules_are_evaluated() {
    let cs = |count: usize| "c".repeat(count);
    let document = row(&[cs(31), cs(32), cs(33), String::new(), cs(4)]);
    // 26 comparisons with 32 bytes, and a last one with none, three or four.
    for (bytes, due) in [(1_020, &[0, 2, 4][..]), (1_023, &[2]), (1_024, &[2, 5])] {
        let rule = constants(bytes);
        assert_marked("longest", &document, rule.as_bytes(), needed(1), due);
    }
}

#[test]
fn constants_beside_values_that_are_longer_or_shorter() {
    let value = |count: usize, last: &str| "m".repeat(count - 1) + last;
    // Around 32 bytes, and the longest value with its last byte changed.
    let values = [
        value(31, "m"),
        value(32, "m"),
        value(33, "m"),
        value(32, "l"),
        value(32, "n"),
        value(255, "m"),
        value(255, "l"),
        value(255, "n"),
        String::new(),
        " ".to_string(),
        "~".repeat(255),
    ];
    let document = row(&values);
    // None of them is a numeral.
    let equal = [2];
    for (sign, due) in [
        ("=", equal.to_vec()),
        ("!=", others(12, &equal)),
        ("<", Vec::new()),
        ("<=", Vec::new()),
        (">", Vec::new()),
        (">=", Vec::new()),
    ] {
        let rule = format!("(e{sign}\"{}\")", value(32, "m"));
        assert_marked(sign, &document, rule.as_bytes(), needed(1), &due);
        // Every two values beside each other, in both directions.
        for path in [".r*r", ".R*R", "r", "R"] {
            let rule = format!("(e{sign}{path})");
            assert_agreement(sign, &document, rule.as_bytes(), needed(2));
        }
    }
    // Among them 6 and 7, and 7 and 8, which differ in their last byte alone.
    let all: Vec<usize> = (1..=10).collect();
    let differing: Vec<usize> = all.into_iter().filter(|v| *v != 9).collect();
    assert_marked("e!=r", &document, b"(e!=r)", needed(3), &differing);
}

#[test]
fn the_longest_constants_as_numerals() {
    // Blanks and a numeral, 32 bytes in all; digits alone are too many.
    let before = |text: &str| format!("{text:>32}");
    let behind = |text: &str| format!("{text:<32}");
    let values = ["9", "10", "-3", "999999999.9999", "9 9", "a", ""];
    let document = row(&values);
    for constant in [before("9.5"), behind("9.5"), format!("{:^32}", "9.5000")] {
        assert_eq!(constant.len(), 32);
        for (sign, due) in [
            ("<", &[1, 3][..]),
            ("<=", &[1, 3]),
            (">", &[2, 4]),
            (">=", &[2, 4]),
            ("=", &[]),
        ] {
            let rule = format!("(e{sign}\"{constant}\")");
            assert_marked(sign, &document, rule.as_bytes(), needed(1), due);
        }
    }
    for digits in [9, 10, 31, 32] {
        let due: &[usize] = if digits == 9 { &[2, 4] } else { &[] };
        let rule = format!("(e>\"{:0>digits$}\")", 9);
        assert_marked("zeros", &document, rule.as_bytes(), needed(2), due);
    }
}

#[test]
fn values_joined_beyond_the_longest() {
    // Two elements whose texts are cut at other places but join to the same
    // 600 bytes, a third with one byte more, a fourth with the last changed.
    let text = |count: usize| "t".repeat(count);
    let changed = text(99) + "u";
    let texts = [
        [text(200), text(200), text(200)],
        [text(255), text(255), text(90)],
        [text(255), text(255), text(91)],
        [text(250), text(250), changed],
    ];
    let mut rows = vec![('e', 0, "lib", "")];
    for texts in &texts {
        rows.extend([('e', 1, "drug", ""), ('a', 2, "name", "uu")]);
        rows.extend(texts.iter().map(|text| ('t', 2, "text", text.as_str())));
    }
    let document = document(&rows);
    // The elements are nodes 1, 6, 11 and 16; the root's value begins as that
    // of 11 and has 2,400 bytes.
    let cases: [(&str, &[usize]); 7] = [
        ("&:drug(e=.r*r)", &[1]),
        ("&:drug(e=.R*R)", &[6]),
        ("&:drug(e!=r)", &[6, 11]),
        ("&:drug(e=r)", &[1]),
        ("&:drug(e!=R)", &[11, 16]),
        ("(e!=..l.rr[:drug])", &[0]),
        ("&:lib(e!=.l.r.rr)", &[0]),
    ];
    for (rule, due) in cases {
        assert_marked("joined", &document, rule.as_bytes(), needed(1), due);
    }
}

#[test]
fn labels_of_16_bytes_with_the_last_changed() {
    let labels = [
        "abcdefghijklmn-9",
        "abcdefghijklmn-8",
        "abcdefghijklmn-",
        "a",
    ];
    let mut rows = vec![('e', 0, "lib", "")];
    rows.extend(labels.map(|label| ('e', 1, label, "")));
    let document = document(&rows);
    for (at, label) in labels.iter().enumerate() {
        let rule = format!(":{label}");
        assert_marked(label, &document, rule.as_bytes(), needed(1), &[at + 1]);
        let rule = format!("(.r[:{label}]=e)");
        let before: Vec<usize> = (at..=at).filter(|node| *node > 0).collect();
        assert_marked(label, &document, rule.as_bytes(), needed(2), &before);
    }
    for label in ["abcdefghijklmn", "b", "abcdefghijklmn-0", "aa"] {
        let rule = format!(":{label}");
        assert_marked(label, &document, rule.as_bytes(), needed(3), &[]);
    }
}
