//! Random documents and rules of all kinds, evaluated with buffers of every
//! length and whatever they held before.

use std::collections::{BTreeMap, BTreeSet};

use crate::evaluation_agreement::{assert_agreement, Buffers, Length, BY_DEFINITION};
use crate::rules_seen::Seen;
use evaluator::amount::amount;
use evaluator::document::{spell, Kind, Library};
use evaluator::evaluate::{needed_words, Outcome};
use evaluator::grammar::COUNT_LIMIT;
use evaluator::meaning;
use evaluator::random::{any_library, library, numeral_or_nearly, rule, rule_about, Random};
use evaluator::rule::{counts, equalities, parts, Operand, Path, Piece, Test};
use evaluator::text_order::{self, some_order_holds};
use evaluator::tree::{trimmed, Tree};
use evaluator::uncut::{counts_differ, marks_differ};

/// So many pairs of a document and a rule.
const CASES: u64 = 40_000;
/// At least so many of them accepted, the others refused by 10 or 11.
const ACCEPTED: usize = 30_000;
/// On at least so many of these the marks, and the counts, are others than they
/// would be if nothing were cut.
const OTHER_MARKS: usize = 2_000;
const OTHER_COUNTS: usize = 3_500;
/// In at least so many an order sign holds somewhere, and in so many the marks
/// are others than they would be by the order of texts.
const ORDERED: usize = 5_000;
const OTHER_ORDER: usize = 5_000;
/// At least so many have a count of nodes, so that twice as many evaluations do;
/// and in so many of them one of more than one node holds at some nodes and fails
/// at others.
const COUNTING: usize = 12_000;
const TELLING: usize = 2_000;

/// A pair with the tree of its document, to look into.
struct Pair {
    library: Library,
    tree: Tree,
    rule: Test,
}

/// Mostly few nodes and parts, so that many pairs are tried.
fn draw_pair(random: &mut Random) -> Pair {
    let most_nodes = match random.below(10) {
        0..=3 => 10,
        4..=7 => 22,
        _ => 40,
    };
    let nodes = 1 + random.below(most_nodes);
    let mut library = match random.percent(80) {
        true => library(random, nodes),
        false => any_library(random, nodes),
    };
    if random.percent(20) {
        scatter_values(random, &mut library);
    }
    let tree = Tree::of(&library);
    let most_parts = match random.below(100) {
        0 => 250,
        1..=9 => 60,
        _ => 20,
    };
    let size = 2 + random.below(most_parts);
    let rule = match random.percent(20) {
        true => rule(random, size.min(60)),
        false => rule_about(random, size, &tree.values),
    };
    Pair {
        library,
        tree,
        rule,
    }
}

/// Gives texts and attributes values that are seldom equal, words and numerals.
fn scatter_values(random: &mut Random, library: &mut Library) {
    for node in &mut library.nodes {
        if node.kind != Kind::Element {
            let letters = b"abcdefghijklmnopqrstuvwxyz";
            node.value = match random.percent(50) {
                true => (0..2).map(|_| *random.pick(letters)).collect(),
                false => numeral_or_nearly(random),
            };
        }
    }
}

/// Mostly just long enough, often longer, seldom too short.
fn draw_length(random: &mut Random, needed: usize) -> Length {
    match random.below(20) {
        0..=10 => Length::Needed,
        11..=18 => Length::Longer(1 + random.below(needed)),
        _ => Length::Shorter(1 + random.below(needed)),
    }
}

/// For words and for marks.
fn draw_buffers(random: &mut Random, nodes: usize) -> Buffers {
    Buffers {
        words: draw_length(random, needed_words(nodes)),
        marks: draw_length(random, nodes),
        seed: random.below(usize::MAX) as u64,
    }
}

/// How much the pairs exercised.
#[derive(Default)]
struct Exercise {
    rules: Seen,
    nodes: BTreeSet<usize>,
    /// How many cases had each of these.
    cases: BTreeMap<&'static str, usize>,
}

impl Exercise {
    fn count(&mut self, name: &'static str, condition: bool) {
        *self.cases.entry(name).or_default() += usize::from(condition);
    }

    fn add(&mut self, pair: &Pair, outcome: &Outcome) {
        self.count("refused by 10", outcome.number == 10);
        self.count("refused by 11", outcome.number == 11);
        self.count("accepted", outcome.number == 0);
        if outcome.number == 0 {
            self.rules.add(&pair.rule.spell());
            self.nodes.insert(pair.tree.size());
            self.add_marks(pair.tree.size(), outcome.selected);
            self.add_snippets(pair, outcome.snippets);
            self.add_tree(pair);
            self.add_rule(pair);
            self.add_cuts(pair);
            self.add_amounts(pair);
            self.add_counts(pair);
        }
    }

    fn add_marks(&mut self, nodes: usize, selected: usize) {
        self.count("none marked", selected == 0);
        self.count("some marked", selected > 0 && selected < nodes);
        self.count("all marked", selected == nodes);
    }

    /// The evaluator counts them by the definition on every pair.
    fn add_snippets(&mut self, pair: &Pair, snippets: usize) {
        let nodes = pair.tree.size();
        assert!(nodes <= BY_DEFINITION);
        let equalities = equalities(&pair.rule).len();
        self.count("counted", equalities > 0);
        self.count("counted, none", equalities > 0 && snippets == 0);
        self.count("counted, some", snippets > 0);
        self.count("counted, many", snippets > 8 * nodes);
        let added = equalities > 1 && snippets > 0;
        self.count("counted, added over several", added);
    }

    /// Deep and wide are meant in the binary tree: left children and right
    /// children that are most of all nodes.
    fn add_tree(&mut self, pair: &Pair) {
        let nodes = pair.tree.size();
        let most = |children: &[Option<usize>]| {
            let count = children.iter().flatten().count();
            nodes >= 8 && 4 * count >= 3 * nodes
        };
        self.count("deep", most(&pair.tree.left));
        self.count("wide", most(&pair.tree.right));
        let values: BTreeSet<&[u8]> = (0..nodes).map(|v| pair.tree.compared(v)).collect();
        let values = values.len();
        self.count("values repeated often", nodes >= 8 && 4 * values <= nodes);
        self.count(
            "values repeated seldom",
            nodes >= 8 && 4 * values >= 3 * nodes,
        );
        let joined = |v: &usize| pair.tree.left[*v].is_some() && pair.tree.compared(*v).len() > 255;
        self.count(
            "a value joined to many bytes",
            (0..nodes).any(|v| joined(&v)),
        );
    }

    fn add_rule(&mut self, pair: &Pair) {
        let mut comparisons = 0;
        let (mut known, mut unknown) = (false, false);
        for part in parts(&pair.rule) {
            if let Piece::Test(Test::Compare(_, _, operand)) = part.piece {
                comparisons += 1;
                if let Operand::Constant(text) = operand {
                    let mut nodes = 0..pair.tree.size();
                    let occurs = nodes.any(|v| pair.tree.compared(v) == trimmed(text));
                    known |= occurs;
                    unknown |= !occurs;
                }
            }
        }
        self.count("several comparisons", comparisons >= 2);
        self.count("many comparisons", comparisons >= 8);
        self.count("a constant that occurs", known);
        self.count("a constant that does not", unknown);
        let brackets = bracket_nesting(&pair.rule);
        self.count("brackets in brackets", brackets >= 2);
        self.count("brackets three deep", brackets >= 3);
    }

    /// Whether it matters that values and constants are cut, and where.
    fn add_cuts(&mut self, pair: &Pair) {
        let is_cut = |v: &usize| pair.tree.compared(*v) != pair.tree.values[*v];
        let (elements, others): (Vec<usize>, Vec<usize>) = (0..pair.tree.size())
            .filter(is_cut)
            .partition(|v| pair.library.nodes[*v].kind == Kind::Element);
        self.count("an element is cut", !elements.is_empty());
        self.count("a text or an attribute is cut", !others.is_empty());
        self.count("a constant is cut", has_cut_constant(&pair.rule));
        let marks = marks_differ(&pair.library, &pair.rule);
        self.count("marks differ by cutting", marks);
        let counts = !equalities(&pair.rule).is_empty() && counts_differ(&pair.library, &pair.rule);
        self.count("counts differ by cutting", counts);
    }

    /// Whether there are numerals, and whether it matters what is one.
    fn add_amounts(&mut self, pair: &Pair) {
        let tree = &pair.tree;
        let own = |v: usize| amount(tree.compared(v));
        let (numerals, others): (Vec<usize>, Vec<usize>) =
            (0..tree.size()).partition(|v| own(*v).is_some());
        self.count(
            "several numerals beside words",
            numerals.len() > 2 && others.len() > 2,
        );
        let amounts: BTreeSet<i64> = numerals.iter().filter_map(|v| own(*v)).collect();
        let texts: BTreeSet<&[u8]> = numerals.iter().map(|v| tree.compared(*v)).collect();
        self.count("one amount in two spellings", amounts.len() < texts.len());
        let texts_inside = |v: usize| {
            let (own, behind) = (&pair.library.nodes[v], &pair.library.nodes[v + 1..]);
            let inside = behind.iter().take_while(|node| node.depth > own.depth);
            let texts = inside.filter(|node| node.kind == Kind::Text);
            texts
                .filter(|text| !trimmed(&text.value).is_empty())
                .count()
        };
        let joined = |v: &usize| texts_inside(*v) >= 2;
        self.count("a numeral joined of texts", numerals.iter().any(joined));
        self.count("an order sign holds", some_order_holds(tree, &pair.rule));
        let by_text = text_order::marks_differ(&pair.library, &pair.rule);
        self.count("marks differ by the order of texts", by_text);
    }

    /// Whether there are counts, where they stand, and whether they tell nodes
    /// apart.
    fn add_counts(&mut self, pair: &Pair) {
        let counts = counts(&pair.rule);
        self.count("a count", !counts.is_empty());
        self.count("several counts", counts.len() >= 2);
        self.count(
            "a count in a count",
            counts.iter().any(|c| inside(c, is_count)),
        );
        self.count(
            "a comparison in a count",
            counts.iter().any(|c| inside(c, is_comparison)),
        );
        self.count(
            "an equality in a count",
            counts.iter().any(|count| !equalities(count).is_empty()),
        );
        let all = parts(&pair.rule);
        let mut tests = all.iter().filter_map(|part| part.piece.test());
        let compared = tests.any(|test| is_comparison(test) && inside(test, is_count));
        self.count("a count in a comparison", compared);
        let nodes = pair.tree.size();
        let number = |test: &Test| test.counted().map(|(n, _)| n);
        let numbers = |n: usize| counts.iter().any(|test| number(test) == Some(n));
        self.count("a count of none", numbers(0));
        self.count("a count of all", numbers(nodes));
        self.count("a count of one more", numbers(nodes + 1));
        self.count("a count of the most", numbers(COUNT_LIMIT));
        let telling = |least: usize| {
            counts.iter().any(|test| {
                let holds = meaning::holds(&pair.tree, test);
                number(test) >= Some(least) && holds.contains(&true) && holds.contains(&false)
            })
        };
        self.count("a count tells nodes apart", telling(1));
        self.count("a count above 1 tells nodes apart", telling(2));
        self.count("a count above 3 tells nodes apart", telling(4));
    }

    fn assert_not_idle(&self) {
        println!("{:?}", self.cases);
        assert!(self.cases["accepted"] >= ACCEPTED, "{:?}", self.cases);
        assert!(
            self.cases["some marked"] >= ACCEPTED / 4,
            "{:?}",
            self.cases
        );
        let (marks, counts) = (
            self.cases["marks differ by cutting"],
            self.cases["counts differ by cutting"],
        );
        assert!(marks >= OTHER_MARKS && counts >= OTHER_COUNTS);
        let (ordered, by_text) = (
            self.cases["an order sign holds"],
            self.cases["marks differ by the order of texts"],
        );
        assert!(ordered >= ORDERED && by_text >= OTHER_ORDER);
        let (counting, telling) = (
            self.cases["a count"],
            self.cases["a count above 1 tells nodes apart"],
        );
        assert!(counting >= COUNTING && telling >= TELLING);
        assert!(
            self.cases.values().all(|cases| *cases >= 200),
            "{:?}",
            self.cases
        );
        assert_eq!(self.nodes.len(), 40, "{:?}", self.nodes);
        // Seven kinds of tests and 14 of paths, six signs before paths and before
        // constants, and all numbers of steps.
        assert_eq!(
            self.rules.constructs.len(),
            21,
            "{:?}",
            self.rules.constructs
        );
        assert_eq!(self.rules.signs.len(), 12);
        assert_eq!(self.rules.steps.len(), 15, "{:?}", self.rules.steps);
        let counted = &self.rules.counted_steps;
        assert_eq!(counted.len(), 15, "{counted:?}");
        assert!(self.rules.tests.iter().any(|tests| *tests >= 48));
    }
}

fn is_count(test: &Test) -> bool {
    test.counted().is_some()
}

fn is_comparison(test: &Test) -> bool {
    matches!(test, Test::Compare(..))
}

/// Whether some test inside this one is such.
fn inside(test: &Test, such: fn(&Test) -> bool) -> bool {
    let inner = parts(test).into_iter().skip(1);
    inner.filter_map(|part| part.piece.test()).any(such)
}

fn has_cut_constant(rule: &Test) -> bool {
    parts(rule).iter().any(|part| match part.piece {
        Piece::Test(Test::Compare(_, _, Operand::Constant(text))) => trimmed(text) != text,
        _ => false,
    })
}

/// How deep brackets stand inside one another, each with a comparison or a count
/// around.
fn bracket_nesting(test: &Test) -> usize {
    match test {
        Test::Name(_) => 0,
        Test::Not(a) => bracket_nesting(a),
        Test::And(a, b) | Test::Or(a, b) => bracket_nesting(a).max(bracket_nesting(b)),
        Test::Compare(p, _, Operand::Path(r)) => inside_paths(&[p, r]),
        Test::Compare(p, ..) | Test::AtLeast(_, p) => inside_paths(&[p]),
    }
}

fn inside_paths(paths: &[&Path]) -> usize {
    let steps = paths.iter().flat_map(|path| path.steps());
    let inside = |step: &Path| match step {
        Path::Stay(test) => 1 + bracket_nesting(test),
        _ => 0,
    };
    steps.map(inside).max().unwrap_or(0)
}

#[test]
fn random_pairs_are_evaluated_alike() {
    let mut exercise = Exercise::default();
    for seed in 0..CASES {
        let random = &mut Random::new(seed);
        let pair = draw_pair(random);
        let buffers = draw_buffers(random, pair.tree.size());
        let (document, rule) = (spell(&pair.library), pair.rule.spell());
        let origin = format_args!("seed {seed}");
        let outcome = assert_agreement(origin, &document, &rule, buffers);
        exercise.add(&pair, &outcome);
    }
    exercise.assert_not_idle();
}
