//! Renamed drugs, unaltered selection (request (n) of document 02): documents
//! that are masked from each other are marked and counted alike by both
//! evaluations, fixed ones, random ones, and ones of 4,096 nodes.

use crate::drug_names::{dose, drug_node, is_above_limit, library_of_drugs, Names, DRUGS, HEPARIN};
use crate::evaluation_agreement::{assert_agreement, assert_marked, Buffers, Length};
use crate::masked_agreement::{assert_unaltered, draw_masked, Answer, Pair, Tally};
use evaluator::amount::amount;
use evaluator::document::{self, Library, NODE_LIMIT};
use evaluator::masking::constants;
use evaluator::meaning::holds;
use evaluator::random::Random;
use evaluator::reader;
use evaluator::rule::{counts, equalities, parts, Path, Piece, Test};
use evaluator::samples::masks::GROUPS;
use evaluator::text_order::{by_text, some_order_holds};
use evaluator::tree::{trimmed, Tree};
use evaluator::uncut::uncut;

/// Buffers of the two calls: other lengths, and something else in them.
const BUFFERS: [Buffers; 2] = [
    Buffers {
        words: Length::Needed,
        marks: Length::Longer(3),
        seed: 1,
    },
    Buffers {
        words: Length::Longer(70),
        marks: Length::Needed,
        seed: 2,
    },
];

#[test]
fn every_fixed_pair_marks_what_is_due() {
    let mut cases = 0;
    for (name, group) in GROUPS {
        for case in group() {
            let rule = case.rule.as_bytes();
            for (document, buffers) in case.documents.iter().zip(BUFFERS) {
                assert_marked(name, document, rule, buffers, case.marked);
                let outcome = assert_agreement(name, document, rule, buffers);
                assert_eq!(outcome.snippets, case.snippets, "{name}: {}", case.rule);
            }
            let [one, other] = case.documents.each_ref().map(|document| read(document));
            let rule = reader::read(rule);
            let answer = assert_unaltered(name, &Pair { one, other, rule }, 1);
            assert_eq!(answer.selected, case.marked.len(), "{name}");
            cases += 1;
        }
    }
    assert!(cases >= 40, "{cases}");
}

fn read(document: &[u8]) -> Library {
    document::read(document).expect("a legal document")
}

/// How much the pairs exercised.
#[derive(Default)]
struct Exercise {
    pairs: Tally,
}

impl Exercise {
    fn add(&mut self, pair: &Pair, answer: &Answer) {
        let trees = [Tree::of(&pair.one), Tree::of(&pair.other)];
        self.pairs.count("snippets", answer.snippets > 0);
        let some = answer.selected > 0 && answer.selected < trees[0].size();
        self.pairs.count("some marked", some);
        self.add_values(&trees, answer);
        self.add_rule(&trees[0], &pair.rule);
        self.add_meanings(pair);
    }

    fn add_values(&mut self, [one, other]: &[Tree; 2], answer: &Answer) {
        let values = |v: usize| [one.compared(v), other.compared(v)];
        let all = 0..one.size();
        let filled: Vec<[&[u8]; 2]> = all.map(values).filter(|[a, _]| !a.is_empty()).collect();
        let others: Vec<[&[u8]; 2]> = filled.iter().copied().filter(|[a, b]| a != b).collect();
        let most = 4 * others.len() > 3 * filled.len();
        self.pairs.count("most values are others", most);
        self.pairs
            .count("most are others, snippets", most && answer.snippets > 0);
        let numerals = others.iter().filter(|[a, _]| amount(a).is_some()).count();
        self.pairs.count("numerals renamed", numerals > 0);
        self.pairs.count("words renamed", numerals < others.len());
        let moved = |[a, b]: &[&[u8]; 2]| amount(a) != amount(b);
        self.pairs.count("other amounts", others.iter().any(moved));
        let long = |[a, _]: &[&[u8]; 2]| a.len() > 255;
        self.pairs
            .count("a value joined to many bytes", others.iter().any(long));
    }

    fn add_rule(&mut self, tree: &Tree, rule: &Test) {
        let constants = constants(rule);
        self.pairs.count("a constant", !constants.is_empty());
        let occurs = |text: &&[u8]| (0..tree.size()).any(|v| tree.compared(v) == trimmed(text));
        self.pairs
            .count("a constant that is kept", constants.iter().any(occurs));
        let all = parts(rule);
        let nested = all.iter().any(|part| match part.piece {
            Piece::Path(Path::Stay(test)) => !self::constants(test).is_empty(),
            _ => false,
        });
        self.pairs.count("a nested constant", nested);
        let counts = counts(rule);
        self.pairs.count("a count", !counts.is_empty());
        let compares = |count: &&Test| {
            let inner = parts(count);
            let mut tests = inner.iter().filter_map(|part| part.piece.test());
            tests.any(|test| matches!(test, Test::Compare(..)))
        };
        self.pairs
            .count("a comparison in a count", counts.iter().any(compares));
        let constant = |count: &&Test| !self::constants(count).is_empty();
        self.pairs
            .count("a constant in a count", counts.iter().any(constant));
        self.pairs
            .count("several equalities", equalities(rule).len() > 1);
        self.pairs
            .count("an order sign holds", some_order_holds(tree, rule));
    }

    /// Whether an evaluation that ordered texts, or that did not cut values,
    /// would mark other nodes: so the pairs would show it.
    fn add_meanings(&mut self, Pair { one, other, rule }: &Pair) {
        let marks = |meaning: fn(&Library, &Test) -> (Tree, Test), library: &Library| {
            let (tree, test) = meaning(library, rule);
            holds(&tree, &test)
        };
        let shows = |meaning| marks(meaning, one) != marks(meaning, other);
        self.pairs
            .count("would show an order of texts", shows(by_text));
        self.pairs
            .count("would show values that are not cut", shows(uncut));
    }
}

/// So many pairs of few nodes, from this seed on; other seeds than those of the
/// other tests.
const FIRST_SEED: u64 = 9_000_000;
const CASES: u64 = 16_000;

/// At least so many of them had each of these.
const AT_LEAST: [(&str, usize); 18] = [
    ("snippets", 7_000),
    ("some marked", 5_200),
    ("most values are others", 11_500),
    ("most are others, snippets", 6_000),
    ("numerals renamed", 10_000),
    ("other amounts", 10_000),
    ("words renamed", 9_500),
    ("a value joined to many bytes", 320),
    ("a constant", 5_500),
    ("a constant that is kept", 3_000),
    ("a nested constant", 3_500),
    ("a count", 5_000),
    ("a comparison in a count", 1_900),
    ("a constant in a count", 850),
    ("several equalities", 2_400),
    ("an order sign holds", 2_800),
    ("would show an order of texts", 450),
    ("would show values that are not cut", 900),
];

#[test]
fn random_masked_pairs_are_unaltered() {
    let mut exercise = Exercise::default();
    for seed in FIRST_SEED..FIRST_SEED + CASES {
        let random = &mut Random::new(seed);
        let most = *random.pick(&[8, 20, 20, 40]);
        let nodes = 2 + random.below(most);
        let pair = draw_masked(random, nodes);
        let answer = assert_unaltered(format_args!("seed {seed}"), &pair, seed);
        exercise.add(&pair, &answer);
    }
    println!("seeds from {FIRST_SEED} on");
    exercise.pairs.assert_at_least(&AT_LEAST);
}

/// Of up to some hundred nodes, most of them too large for the evaluator to count
/// their snippets; other seeds again.
#[test]
fn larger_random_masked_pairs_are_unaltered() {
    let (mut counted, mut some, mut nodes_renamed) = (0, 0, 0);
    for seed in 9_100_000..9_100_200 {
        let random = &mut Random::new(seed);
        let nodes = 42 + random.below(559);
        let pair = draw_masked(random, nodes);
        let answer = assert_unaltered(format_args!("seed {seed}"), &pair, seed);
        counted += usize::from(answer.snippets > 0);
        some += usize::from(answer.selected > 0 && answer.selected < nodes);
        let trees = [Tree::of(&pair.one), Tree::of(&pair.other)];
        let renamed = |v: &usize| trees[0].compared(*v) != trees[1].compared(*v);
        nodes_renamed += (0..nodes).filter(renamed).count();
    }
    println!("{counted} had snippets, {some} marked some nodes and not all");
    println!("{nodes_renamed} nodes have another value");
    assert!(counted > 100 && some > 100, "{counted}, {some}");
    assert!(nodes_renamed > 29_000, "{nodes_renamed}");
}

/// Asserts that a rule marks just these drugs in a library of the most nodes and
/// in the masked one, and returns how many snippets both have.
fn assert_drugs(rule: &str, due: fn(usize) -> bool) -> usize {
    let [one, other] = [Names::Plain, Names::Masked].map(library_of_drugs);
    assert_eq!(one.nodes.len(), NODE_LIMIT);
    let test = reader::read(rule.as_bytes());
    let pair = Pair {
        one,
        other,
        rule: test,
    };
    let answer = assert_unaltered(rule, &pair, 1);
    let marked = |v: &usize| answer.marks[*v] == 1;
    let marked: Vec<usize> = (0..NODE_LIMIT).filter(marked).collect();
    let due: Vec<usize> = (0..DRUGS).filter(|n| due(*n)).map(drug_node).collect();
    assert_eq!(marked, due, "{rule}");
    assert!(!due.is_empty() && due.len() < DRUGS, "{rule}");
    answer.snippets
}

/// Whether a later drug has the same name.
fn is_repeated(number: usize) -> bool {
    number % 3 == 1
}

#[test]
fn the_most_nodes_masked() {
    assert!(assert_drugs("&:drug(.l[:name]=..r*rl)", is_repeated) > 0);
    let many_later = |number: usize| {
        let later = number + 1..DRUGS;
        later.filter(|number| is_repeated(*number)).count() >= 150
    };
    assert!(assert_drugs("#150..r*r[(.l[:name]=..r*rl)]", many_later) > 0);
    let above = "&:drug(..l*r[:dose]>..l*r[:limit])";
    assert_eq!(assert_drugs(above, is_above_limit), 0);
    let high = |number: usize| dose(number) >= 100;
    assert_eq!(assert_drugs("(..l*r[:dose]>=\"100\")", high), 0);
    // It is the name of two drugs.
    let before = |number: usize| number < HEPARIN;
    assert_eq!(assert_drugs("#2..r*r[(l=\"heparin\")]", before), 0);
}
