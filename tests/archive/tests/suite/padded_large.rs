//! Padded values on large libraries: long values, deep nesting, long stretches
//! in common that do or do not lie in the same places, and nothing but blanks.

use std::collections::BTreeSet;

use crate::evaluation_agreement::{assert_agreement, assert_marked, called, needed, EVALUATIONS};
use evaluator::document::{spell, Library, Node, NODE_LIMIT, VALUE_LIMIT};
use evaluator::evaluate::{Evaluation, Outcome};
use evaluator::random::{branching_library, library, padded_ends, rule_about, Random};
use evaluator::samples::blanks::blanks;
use evaluator::samples::libraries::{attribute, element, text, SHAPES};
use evaluator::samples::name;
use evaluator::samples::selections::SESSION;
use evaluator::tree::Tree;
use yurzhoad::limits::needed_words;

/// Drugs inside one another from this depth on, each with one of these texts
/// before the next. In the binary tree a drug has its text to the left, and the
/// text the next drug to the right.
fn nested(depth: usize, texts: &[String]) -> Vec<Node> {
    let drug = |(at, value): (usize, &String)| {
        let depth = depth + at;
        [element(depth, "drug"), text(depth + 1, value.clone())]
    };
    texts.iter().enumerate().flat_map(drug).collect()
}

/// Two nestings of such drugs beside each other, inside a root.
fn beside(first: &[String], second: &[String]) -> Library {
    let root = vec![element(0, "lib")];
    Library {
        nodes: [root, nested(1, first), nested(1, second)].concat(),
    }
}

/// Compares a drug of the first nesting with all of the second.
const ACROSS: &str = "&:drug(e=..*.RLr*.lr)";

/// The outcome of an accepted call of the archive, and the marks.
fn accepted(evaluation: Evaluation, library: &Library, rule: &[u8]) -> (Outcome, Vec<u8>) {
    let (document, nodes) = (spell(library), library.nodes.len());
    let (mut scratch, mut marks) = (vec![0x5A5A; needed_words(nodes)], vec![0x5A; nodes]);
    let outcome = called(evaluation, &document, rule, &mut scratch, &mut marks);
    assert_eq!(outcome.number, 0);
    (outcome, marks)
}

/// How deep drugs are nested. The deepest the evaluator does not mark: joined,
/// their values have many millions of bytes.
const DEPTHS: [usize; 4] = [1, 2, 60, 1_500];
const MARKED_BY_EVALUATOR: usize = 100;

/// Asserts what both evaluations mark on drugs nested so deep, and that the
/// evaluator does too. Returns what the snippet evaluation hands back.
fn assert_nested(texts: &[String], rule: &str, due: &[usize]) -> Outcome {
    let library = Library {
        nodes: nested(0, texts),
    };
    let (origin, bytes) = (format!("nested {} deep", texts.len()), rule.as_bytes());
    if texts.len() <= MARKED_BY_EVALUATOR {
        assert_marked(&origin, &spell(&library), bytes, needed(1), due);
    }
    let [_, snippets] = EVALUATIONS.map(|evaluation| {
        let (outcome, marks) = accepted(evaluation, &library, bytes);
        let marked: Vec<usize> = (0..marks.len()).filter(|v| marks[*v] == 1).collect();
        let differing = (0..marks.len()).find(|v| marked.contains(v) != due.contains(v));
        assert_eq!(differing, None, "{origin}: {rule}");
        assert_eq!(outcome.selected, due.len(), "{origin}: {rule}");
        outcome
    });
    snippets
}

/// Every second node from this one on, but for the last so many.
fn every_second(nodes: usize, first: usize, last: usize) -> Vec<usize> {
    (first..nodes - 2 * last).step_by(2).collect()
}

#[test]
fn the_same_longest_text_before_each_of_many_nested_elements() {
    let value = format!("  {}   ", "ab".repeat(125));
    assert_eq!(value.len(), VALUE_LIMIT);
    for depth in DEPTHS {
        // The last one is equal to the others when they are cut.
        let mut texts = vec![value.clone(); depth];
        texts[depth - 1] = value.trim_end().to_string();
        let nodes = 2 * depth;
        // Each drug's value begins as the next one's, and goes on.
        assert_nested(&texts, "(l=e)", &[nodes - 2]);
        assert_nested(&texts, "(.lr!=e)", &every_second(nodes, 0, 1));
        assert_nested(&texts, "&:text(e=.rl)", &every_second(nodes, 1, 1));
    }
}

#[test]
fn nothing_but_blanks_in_many_nested_elements() {
    // Each position comes to every node, and each stretch is one edge.
    const EVERYWHERE: &str = "(*+l+r+LR=*+l+r+LR)";
    const PAIRS: usize = 2 * 5 * 5;
    for depth in DEPTHS {
        let texts = vec![blanks(VALUE_LIMIT); depth];
        let all: Vec<usize> = (0..2 * depth).collect();
        assert_nested(&texts, "(e=\"\")", &all);
        let outcome = assert_nested(&texts, EVERYWHERE, &all);
        assert_eq!(outcome.snippets, PAIRS * (2 * depth - 1), "{depth}");
    }
}

#[test]
fn blanks_before_and_behind_one_byte_of_many_nested_elements() {
    for depth in DEPTHS {
        let mut places = BTreeSet::from([depth / 2]);
        if depth <= MARKED_BY_EVALUATOR {
            places.extend([0, depth - 1]);
        }
        for at in places {
            let mut texts = vec![blanks(VALUE_LIMIT); depth];
            texts[at] = format!("{}a{}", blanks(100), blanks(100));
            // The drugs around that text have its value, and it has it too.
            let mut due: Vec<usize> = (0..=at).map(|drug| 2 * drug).collect();
            due.push(2 * at + 1);
            assert_nested(&texts, "(e=\" a\")", &due);
            // The innermost of them has one inside that has not, or none.
            let innermost = if at + 1 < depth { vec![2 * at] } else { vec![] };
            assert_nested(&texts, "(.lr!=e)", &innermost);
        }
    }
}

/// So many texts of these lengths in turn, cut out of one that goes on as `ab`
/// for ever, and behind them so many blanks.
fn cut_out(lengths: &[usize], count: usize, behind: usize) -> Vec<String> {
    let lengths = lengths.iter().cycle().take(count);
    let mut texts: Vec<String> = lengths.map(|length| "ab".repeat(length / 2)).collect();
    texts.push(blanks(behind));
    texts
}

/// The bytes that are left of each drug.
fn lengths_left(texts: &[String]) -> Vec<usize> {
    let left = |at: usize| texts[at..].concat().trim_end_matches(' ').len();
    (0..texts.len()).map(left).collect()
}

#[test]
fn stretches_in_common_that_lie_in_other_places() {
    for (count, other_count, equal) in [(5, 6, 2), (25, 30, 6), (300, 350, 59)] {
        let first = cut_out(&[254, 2, 130, 96, 18], count, VALUE_LIMIT);
        let second = cut_out(&[40, 180, 30], other_count, 100);
        // Only their lengths tell the values apart.
        let others = lengths_left(&second);
        let same = |(_, left): &(usize, usize)| others.contains(left);
        let drugs = lengths_left(&first).into_iter().enumerate().filter(same);
        let due: Vec<usize> = drugs.map(|(at, _)| 1 + 2 * at).collect();
        assert_eq!(due.len(), equal);
        let document = spell(&beside(&first, &second));
        assert_marked("across", &document, ACROSS.as_bytes(), needed(1), &due);
        for rule in ["&:drug(e!=.lr)", "&:drug(e!=..*.RLr*.lr)", "(e=.*.lrl)"] {
            let outcome = assert_agreement("across", &document, rule.as_bytes(), needed(2));
            assert_eq!(outcome.number, 0, "{rule}");
        }
    }
}

#[test]
fn texts_that_differ_by_blanks_alone() {
    let turns = |values: &[&str], count: usize| -> Vec<String> {
        let values = values.iter().cycle().take(count);
        values.map(|value| value.to_string()).collect()
    };
    // Joined they are `x xx xx x` and so on, cut at other places.
    let pairs = [
        (["x", " x"], ["x ", "x"]),
        ([" x", "x"], ["x", "x "]),
        (["x ", "x "], [" x", " x"]),
        (["x", "x"], ["x ", " x"]),
        ([" ", "x"], ["x", " "]),
    ];
    let mut some = 0;
    for (first, second) in pairs {
        for count in [2, 3, 20, 21, 300] {
            let library = beside(&turns(&first, count), &turns(&second, count));
            let origin = format!("{first:?} and {second:?}, {count}");
            for rule in [ACROSS, "&:drug(e!=..*.RLr*.lr)", "&:drug(l=.lr)"] {
                let document = spell(&library);
                let outcome = assert_agreement(&origin, &document, rule.as_bytes(), needed(1));
                assert_eq!(outcome.number, 0, "{rule}");
                some += usize::from(outcome.selected > 0);
            }
        }
    }
    assert!(some >= 20, "{some} marked some nodes");
}

/// A root with so many attributes of 255 bytes: 40 values by turns, with blanks
/// around them.
fn forty_values(count: usize, value: fn(usize) -> String) -> Vec<u8> {
    let padded = |number: usize| {
        let left = value(number % 40);
        let room = VALUE_LIMIT - left.len();
        let front = number * 7 % (room + 1);
        format!("{}{left}{}", blanks(front), blanks(room - front))
    };
    let entry = |number: usize| attribute(1, &name(number), padded(number));
    let mut nodes = vec![element(0, "lib")];
    nodes.extend((0..count).map(entry));
    spell(&Library { nodes })
}

#[test]
fn many_long_values_that_are_equal_when_cut() {
    const COUNT: usize = 3_000;
    // They begin alike, and have 232 bytes.
    let document = forty_values(COUNT, |number| format!("{}{number:02}", "m".repeat(230)));
    let last: Vec<usize> = (1..=COUNT - 40).collect();
    assert_marked("equal", &document, b"(e=.r*r)", needed(1), &last);
    let all: Vec<usize> = (1..COUNT).collect();
    assert_marked("not the same", &document, b"(e!=r)", needed(2), &all);
    assert_marked("the same", &document, b"(e=r)", needed(3), &[]);
    assert_marked("no numerals", &document, b"(e<=.r*r)", needed(4), &[]);
}

#[test]
fn many_padded_numerals() {
    const COUNT: usize = 3_000;
    // From -19.5 to 19.5, rising by turns; attribute 1 has the first.
    let document = forty_values(COUNT, |number| format!("{:.1}", number as f64 - 19.5));
    let last: Vec<usize> = (1..=COUNT - 40).collect();
    assert_marked("equal", &document, b"(e=.r*r)", needed(1), &last);
    let before_first = |v: &usize| (v - 1) % 40 != 39;
    let rising: Vec<usize> = (1..COUNT).filter(before_first).collect();
    let falling: Vec<usize> = (1..COUNT).filter(|v| !before_first(v)).collect();
    assert_marked("rising", &document, b"(e<r)", needed(2), &rising);
    assert_marked("falling", &document, b"(e>=r)", needed(3), &falling);
    // Half of them are below 0, and the first of each turn is the least.
    let negative: Vec<usize> = (1..=COUNT).filter(|v| (v - 1) % 40 < 20).collect();
    assert_marked("negative", &document, b"(e<\"-0\")", needed(4), &negative);
    let not_least: Vec<usize> = (2..=COUNT).filter(|v| (v - 1) % 40 != 0).collect();
    assert_marked("above", &document, b"(e>.R*R)", needed(5), &not_least);
}

/// Asserts that blanks which are cut change nothing: both evaluations of the
/// archive mark and count on the padded library what they do on the bare one.
/// Returns what the snippet evaluation does.
fn assert_unchanged(origin: &str, bare: &Library, padded: &Library, rule: &[u8]) -> Outcome {
    let [_, snippets] = EVALUATIONS.map(|evaluation| {
        let due = accepted(evaluation, bare, rule);
        if accepted(evaluation, padded, rule) != due {
            // The evaluator tells which of the two is wrong, and on what.
            for library in [padded, bare] {
                assert_agreement(origin, &spell(library), rule, needed(1));
            }
            panic!("{origin}, {evaluation:?}: {}", rule.escape_ascii());
        }
        due.0
    });
    snippets
}

const RULES: [&str; 5] = [
    SESSION,
    "!(.+lr+lr=.+LR+LR)",
    "([(r=+l+RL)]=+r+lL)",
    "|(+e+lr>\" 9 \")(.L[(e=r)]<.rr)",
    "&(e>=\"1024 \")|(e=.r+re)(e<=+R[(e>\"  4000\")])",
];

#[test]
fn blanks_that_are_cut_change_nothing_on_every_shape() {
    let mut counted = 0;
    for (seed, (shape_name, shape)) in (0..).zip(SHAPES) {
        let random = &mut Random::new(seed);
        for nodes in [63, 600, NODE_LIMIT] {
            let bare = shape(nodes);
            let padded = padded_ends(random, &bare);
            let rules = if nodes > 600 { &RULES[2..] } else { &RULES };
            for rule in rules {
                let origin = format!("seed {seed}, {shape_name} of {nodes}");
                let outcome = assert_unchanged(&origin, &bare, &padded, rule.as_bytes());
                counted += usize::from(outcome.snippets > 0);
            }
        }
    }
    println!("{counted} had snippets");
    assert!(counted > 30, "{counted}");
}

#[test]
fn blanks_that_are_cut_change_nothing_on_random_trees() {
    let (mut some, mut counted) = (0, 0);
    // Other seeds than those of the other tests.
    for seed in 6_000_000..6_000_300 {
        let random = &mut Random::new(seed);
        let most = *random.pick(&[20, 200, 600, 1_200]);
        let nodes = 1 + random.below(most);
        let bare = match random.percent(50) {
            true => library(random, nodes),
            false => branching_library(random, nodes),
        };
        let padded = padded_ends(random, &bare);
        let rule = rule_about(random, 10, &Tree::of(&bare).values).spell();
        let outcome = assert_unchanged(&format!("seed {seed}"), &bare, &padded, &rule);
        some += usize::from(outcome.selected > 0 && outcome.selected < nodes);
        counted += usize::from(outcome.snippets > 0);
    }
    println!("{some} marked some nodes and not all, {counted} had snippets");
    assert!(some > 100 && counted > 50, "{some}, {counted}");
}
