//! Request (k) of document 02: by some of the values of an equality just the
//! distinct snippets are counted that these yield, with all snippets of the
//! equalities inside it, and the nodes are marked that the counted ones settle.

use std::collections::{BTreeMap, BTreeSet};

use crate::evaluation_agreement::{assert_by_values, needed, BY_DEFINITION};
use crate::value_calls::{draw_branching, draw_buffers, draw_small, Drawn};
use evaluator::by_values::{largest_first, nodes_of};
use evaluator::evaluate::Outcome;
use evaluator::random::{repeated, some_values, Random};
use evaluator::samples::counts::{row, EVERYWHERE};
use evaluator::samples::value_lists::GROUPS;
use evaluator::tree::Tree;

#[test]
fn every_fixed_list_is_counted_and_marked_as_due() {
    for (seed, (name, cases)) in (0..).zip(GROUPS) {
        for case in cases() {
            let (document, rule) = (&case.document, case.rule.as_bytes());
            let origin = format!("{name}: {}", case.rule);
            let (outcome, marked) =
                assert_by_values(&origin, document, rule, case.values, needed(seed));
            let due = Outcome {
                number: 0,
                place: 0,
                selected: case.marked.len(),
                snippets: case.snippets,
            };
            assert_eq!(outcome, due, "{origin} by {:?}", case.values);
            assert_eq!(marked, case.marked, "{origin} by {:?}", case.values);
        }
    }
}

/// The value a at nodes 1 and 4 yields five stretches and b at 2 and 5 yields five,
/// three of them the same; each stretch has 18 pairs of positions.
#[test]
fn two_parts_that_share_snippets() {
    let document = row(&["a", "b", "c", "a", "b"]);
    let count = |values: &[u16]| {
        let rule = EVERYWHERE.as_bytes();
        let (outcome, _) = assert_by_values("shared", &document, rule, values, needed(1));
        outcome.snippets
    };
    let (a, b, both) = (count(&[1]), count(&[2]), count(&[1, 2]));
    assert_eq!((a, b, both), (90, 90, 126));
    assert_eq!((count(&[4]), count(&[5]), count(&[5, 4, 1])), (90, 90, 126));
    assert_eq!((count(&[]), count(&[0, 3])), (0, 0));
}

/// A part of the values, and all others. Each is asked by itself, and the part once
/// more with repeats.
struct Parts {
    part: Vec<u16>,
    others: Vec<u16>,
    again: Vec<u16>,
}

impl Parts {
    fn draw(random: &mut Random, tree: &Tree) -> Parts {
        let part = some_values(random, tree);
        let values: BTreeSet<&[u8]> = nodes_of(&part).map(|v| tree.compared(v)).collect();
        let is_other = |node: &u16| !values.contains(tree.compared(usize::from(*node)));
        let others = largest_first(tree).into_iter().filter(is_other).collect();
        let again = repeated(random, tree, &part);
        Parts {
            part,
            others,
            again,
        }
    }
}

/// How much the calls exercised.
#[derive(Default)]
struct Exercise {
    cases: BTreeMap<&'static str, usize>,
    counts: BTreeSet<usize>,
}

impl Exercise {
    fn count(&mut self, name: &'static str, condition: bool) {
        *self.cases.entry(name).or_default() += usize::from(condition);
    }

    /// Asks for a part and for the others, and holds both against the whole.
    fn try_parts(&mut self, seed: u64, random: &mut Random, drawn: &Drawn) {
        let parts = Parts::draw(random, &drawn.tree);
        let buffers = draw_buffers(random, drawn.tree.size());
        let ask = |list: &[u16]| {
            let origin = format_args!("seed {seed}");
            assert_by_values(origin, &drawn.document, &drawn.rule, list, buffers)
        };
        let part = ask(&parts.part);
        assert_eq!(ask(&parts.again), part, "seed {seed}");
        self.count("refused", part.0.number != 0);
        if part.0.number == 0 {
            let others = ask(&parts.others);
            let whole = ask(&[&parts.part[..], &parts.others].concat());
            let none = ask(&[]);
            self.count("empty", parts.part.is_empty());
            self.add(drawn, [part, others, whole, none]);
        }
    }

    /// The snippets of the brackets are in each of the four, and the empty list has
    /// no others.
    fn add(&mut self, drawn: &Drawn, asked: [(Outcome, Vec<usize>); 4]) {
        let [part, others, whole, none] = asked;
        let nested = none.0.snippets;
        let own = |of: &(Outcome, Vec<usize>)| of.0.snippets - nested;
        assert!(own(&part) <= own(&whole) && own(&others) <= own(&whole));
        assert!(own(&whole) <= own(&part) + own(&others));
        let marked: BTreeSet<usize> = part.1.iter().chain(&others.1).copied().collect();
        assert!(marked.into_iter().eq(whole.1.iter().copied()));
        self.counts.insert(own(&part));
        self.count("accepted", true);
        self.count("with snippets", own(&part) > 0);
        let fewer = own(&part) > 0 && own(&part) < own(&whole);
        self.count("fewer snippets than by all", fewer);
        self.count("as many as by all", own(&part) == own(&whole));
        self.count("fewer marked than by all", part.1.len() < whole.1.len());
        let between = none.1.len() < part.1.len() && part.1.len() < whole.1.len();
        self.count("more marked than by none, fewer than by all", between);
        let shared = own(&part) + own(&others) > own(&whole);
        self.count("two parts share snippets", shared);
        self.count("nested with snippets", drawn.is_nested() && nested > 0);
    }

    fn assert_not_idle(&self, least: &[(&str, usize)]) {
        println!("{} distinct counts, {:?}", self.counts.len(), self.cases);
        for (name, cases) in least {
            assert!(self.cases[name] >= *cases, "{name}: {:?}", self.cases);
        }
    }
}

/// So many pairs of a document and an equality, each by five lists.
const CASES: u64 = 6_000;
/// Other seeds than those of the other tests.
const FIRST_SEED: u64 = 6_100_000;

#[test]
fn random_parts_are_counted_and_marked_as_by_the_definition() {
    let mut exercise = Exercise::default();
    for seed in FIRST_SEED..FIRST_SEED + CASES {
        let random = &mut Random::new(seed);
        let drawn = draw_small(random);
        exercise.try_parts(seed, random, &drawn);
    }
    exercise.assert_not_idle(&[
        ("accepted", 5_000),
        ("refused", 200),
        ("with snippets", 2_800),
        ("fewer snippets than by all", 1_700),
        ("as many as by all", 1_000),
        ("fewer marked than by all", 800),
        ("more marked than by none, fewer than by all", 250),
        ("two parts share snippets", 180),
        ("nested with snippets", 1_000),
        ("empty", 200),
    ]);
    assert!(exercise.counts.len() > 350);
}

const SMALLEST: usize = 40;
const LARGEST: usize = 120;
const _: () = assert!(LARGEST <= BY_DEFINITION);

#[test]
fn random_parts_on_branching_trees() {
    let mut exercise = Exercise::default();
    let sizes = (SMALLEST..=LARGEST).flat_map(|nodes| [nodes; 4]);
    for (seed, nodes) in (6_200_000..).zip(sizes) {
        let random = &mut Random::new(seed);
        let drawn = draw_branching(random, nodes);
        exercise.try_parts(seed, random, &drawn);
    }
    exercise.assert_not_idle(&[
        ("accepted", 280),
        ("with snippets", 150),
        ("fewer snippets than by all", 130),
        ("more marked than by none, fewer than by all", 25),
        ("two parts share snippets", 20),
        ("nested with snippets", 50),
    ]);
}
