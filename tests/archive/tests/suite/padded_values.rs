//! Padded values and constants one by one: every tree of a few nodes with texts
//! that are blank in parts, and constants in every padded spelling.

use crate::evaluation_agreement::{assert_agreement, assert_marked, called, needed, EVALUATIONS};
use evaluator::document::check;
use evaluator::meaning::compare;
use evaluator::rule::Sign;
use evaluator::samples::blanks::blanks;
use evaluator::samples::{counts, document, selections};
use yurzhoad::limits::needed_words;

/// Kind and depth of each node.
type Shape = Vec<(char, usize)>;

/// The document of a shape: its texts get these values in turn, and its
/// attributes the values `a` and `1` with a blank at one end.
fn filled(shape: &Shape, texts: &[&str]) -> Vec<u8> {
    let mut texts = texts.iter();
    let labels = ["n0", "n1", "n2", "n3", "n4", "n5"];
    let row = |(node, (kind, depth)): (usize, &(char, usize))| match kind {
        'e' => ('e', *depth, "drug", ""),
        'a' => ('a', *depth, labels[node], [" a", "1 "][node % 2]),
        _ => ('t', *depth, "text", *texts.next().unwrap_or(&"")),
    };
    let rows: Vec<_> = shape.iter().enumerate().map(row).collect();
    document(&rows)
}

/// Every choice of kinds and depths for so many nodes that 01 allows.
fn shapes(nodes: usize) -> Vec<Shape> {
    let places: Vec<(char, usize)> = "eat"
        .chars()
        .flat_map(|kind| (1..nodes).map(move |depth| (kind, depth)))
        .collect();
    let mut shapes = vec![vec![('e', 0)]];
    for _ in 1..nodes {
        let longer = |shape: &Shape| -> Vec<Shape> {
            let longer = places.iter().map(|place| [&shape[..], &[*place]].concat());
            longer
                .filter(|shape| check(&filled(shape, &[])).number == 0)
                .collect()
        };
        shapes = shapes.iter().flat_map(longer).collect();
    }
    shapes
}

/// Compares what these rules mark and count on every shape of so many nodes and
/// texts, with every choice of these values, and returns how many inputs.
fn compare_all(nodes: usize, texts: usize, values: &[&str], rules: &[&str]) -> usize {
    let is_text = |place: &&(char, usize)| place.0 == 't';
    let mut inputs = 0;
    for shape in shapes(nodes) {
        if shape.iter().filter(is_text).count() != texts {
            continue;
        }
        for choice in 0..values.len().pow(texts as u32) {
            let value =
                |place: usize| values[choice / values.len().pow(place as u32) % values.len()];
            let chosen: Vec<&str> = (0..texts).map(value).collect();
            let document = filled(&shape, &chosen);
            for rule in rules {
                let origin = format_args!("{shape:?} with {chosen:?}");
                let outcome = assert_agreement(origin, &document, rule.as_bytes(), needed(1));
                assert_eq!((outcome.number, outcome.place), (0, 0));
                inputs += 1;
            }
        }
    }
    inputs
}

const VALUES: [&str; 8] = ["", " ", "1", " 1", "1 ", " 1 ", " a", "a b"];

/// Against constants, and against what stands below, beside and above.
const RULES: [&str; 7] = [
    "(e=\"a\")",
    "(e=\" 1 \")",
    "(e<\" 2\")",
    "(e=.+lr*+lr)",
    "(l=.lr)",
    "(e<=+r+lL)",
    "(e!=.l*r)",
];

#[test]
fn every_small_tree_with_one_or_two_texts() {
    assert_eq!(shapes(4).len(), 40);
    let mut inputs = 0;
    for nodes in 2..=5 {
        inputs += compare_all(nodes, 1, &VALUES, &RULES);
        inputs += compare_all(nodes, 2, &VALUES, &RULES);
    }
    println!("{inputs} inputs");
    assert!(inputs > 25_000, "{inputs}");
}

#[test]
fn every_small_tree_with_three_texts() {
    let inputs = compare_all(4, 3, &VALUES, &RULES) + compare_all(5, 3, &VALUES, &RULES);
    println!("{inputs} inputs");
    assert!(inputs > 30_000, "{inputs}");
}

#[test]
fn every_small_tree_with_four_texts() {
    let flat = compare_all(5, 4, &VALUES, &RULES[..2]);
    let nested = compare_all(6, 4, &["", " ", "1", " b"], &RULES[1..4]);
    println!("{flat} and {nested} inputs");
    assert!(flat > 8_000 && nested > 8_000, "{flat}, {nested}");
}

/// What is left of values and constants.
const LEFT: [&str; 9] = ["", "a", "ab", "a b", "a  b", "!", "9", "10", "-0.5"];

/// A text with up to two blanks at each end.
fn spellings(left: &str) -> Vec<String> {
    let ends = (0..3).flat_map(|front| (0..3).map(move |behind| (front, behind)));
    ends.map(|(front, behind)| format!("{}{left}{}", blanks(front), blanks(behind)))
        .collect()
}

/// The same filled to the 32 bytes of the longest constant, at either end and at
/// both.
fn longest_spellings(left: &str) -> [String; 3] {
    let room = 32 - left.len();
    [0, room / 2, room].map(|front| format!("{}{left}{}", blanks(front), blanks(room - front)))
}

/// Texts with what is left of each, and what is left of them joined.
type Joined = (&'static [(&'static str, &'static str)], &'static str);

const JOINED: [Joined; 8] = [
    (&[(" ", ""), ("", "")], ""),
    (&[(" ", ""), ("a", "a"), ("  ", "")], "a"),
    (&[("a ", "a"), ("b ", "b")], "a b"),
    (&[(" a", "a"), ("  ", ""), ("b", "b")], "a  b"),
    (&[(" a", "a"), ("b ", "b")], "ab"),
    (&[("", ""), (" !  ", "!")], "!"),
    (&[(" 1", "1"), ("0 ", "0")], "10"),
    (&[(" -", "-"), ("0.5", "0.5"), (" ", "")], "-0.5"),
];

/// A document with every spelling as an attribute, and elements with these
/// texts; and for each node what is left of it. The root's text begins with a
/// byte above all others, and so does the root.
fn every_spelling() -> (Vec<u8>, Vec<&'static str>) {
    let values: Vec<(String, &str)> = LEFT
        .iter()
        .flat_map(|left| spellings(left).into_iter().map(|value| (value, *left)))
        .collect();
    let labels: Vec<String> = (0..values.len()).map(|at| format!("n{at}")).collect();
    let (mut rows, mut left) = (vec![('e', 0, "lib", "")], vec!["~"]);
    for ((value, kept), label) in values.iter().zip(&labels) {
        rows.push(('a', 1, label, value));
        left.push(*kept);
    }
    rows.push(('t', 1, "text", "~"));
    left.push("~");
    for (texts, joined) in JOINED {
        rows.push(('e', 1, "drug", ""));
        left.push(joined);
        rows.extend(texts.iter().map(|(value, _)| ('t', 2, "text", *value)));
        left.extend(texts.iter().map(|(_, kept)| *kept));
    }
    (document(&rows), left)
}

fn sign_text(sign: Sign) -> String {
    String::from_utf8_lossy(sign.spell()).into_owned()
}

#[test]
fn constants_of_every_spelling_with_every_sign() {
    let (document, left) = every_spelling();
    let mut calls = 0;
    for constant in LEFT {
        let spelled = spellings(constant).into_iter();
        for spelled in spelled.chain(longest_spellings(constant)) {
            for sign in Sign::ALL {
                let rule = format!("(e{}\"{spelled}\")", sign_text(sign));
                let holds = |v: &usize| compare(sign, left[*v].as_bytes(), constant.as_bytes());
                let due: Vec<usize> = (0..left.len()).filter(holds).collect();
                let origin = "every spelling";
                assert_marked(origin, &document, rule.as_bytes(), needed(calls), &due);
                calls += 1;
            }
        }
    }
    assert_eq!(calls, LEFT.len() as u64 * 12 * 6);
}

#[test]
fn values_of_every_spelling_with_every_sign() {
    let (document, left) = every_spelling();
    // The attributes stand beside each other, and the nodes from 1 to this one.
    let attributes = LEFT.len() * 9;
    for sign in Sign::ALL {
        let rule = format!("&!:text&!:drug(R{}e)", sign_text(sign));
        let holds = |v: &usize| compare(sign, left[*v - 1].as_bytes(), left[*v].as_bytes());
        let due: Vec<usize> = (2..=attributes).filter(holds).collect();
        assert_marked("neighbours", &document, rule.as_bytes(), needed(1), &due);
        let rule = format!(
            "&!:lib&!:text&!:drug(e{}..r*r[!|:text:drug])",
            sign_text(sign)
        );
        let outcome = assert_agreement("all behind", &document, rule.as_bytes(), needed(2));
        assert_eq!(outcome.number, 0, "{rule}");
        let rule = format!("(e{}.+LR*+LR)", sign_text(sign));
        let outcome = assert_agreement("all above", &document, rule.as_bytes(), needed(3));
        assert_eq!(outcome.number, 0, "{rule}");
    }
}

#[test]
fn a_call_does_not_alter_the_document_or_the_rule() {
    let selections = selections::GROUPS
        .into_iter()
        .flat_map(|(_, cases)| cases());
    let counts = counts::GROUPS.into_iter().flat_map(|(_, cases)| cases());
    let selections = selections.map(|case| (case.document, case.rule));
    for (document, rule) in selections.chain(counts.map(|case| (case.document, case.rule))) {
        let nodes = check(&document).nodes;
        let copies = (document.clone(), rule.to_string());
        for evaluation in EVALUATIONS {
            let (mut scratch, mut marks) = (vec![7; needed_words(nodes)], vec![7; nodes]);
            let bytes = rule.as_bytes();
            let outcome = called(evaluation, &document, bytes, &mut scratch, &mut marks);
            assert_eq!(outcome.number, 0, "{rule}");
            assert_eq!((&document, rule), (&copies.0, copies.1.as_str()));
        }
    }
}
