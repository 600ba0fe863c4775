//! Counts of nodes, `#nP`: every number around what is reached, on rows and
//! chains, on every small tree by every short path, and on random trees; paths
//! that come to a node in two ways; and all nodes of the largest libraries.

use crate::evaluation_agreement::{assert_agreement, assert_due, called, needed, EVALUATIONS};
use crate::rule_agreement::archive_refusal;
use evaluator::document::{self, spell, Library, NODE_LIMIT};
use evaluator::evaluate::{Evaluation, Outcome};
use evaluator::grammar::COUNT_LIMIT;
use evaluator::meaning::reaches;
use evaluator::random::{branching_library, library, rule_about, Random};
use evaluator::rule::{counts, Operand, Path, Sign, Test};
use evaluator::samples::at_least::every_number;
use evaluator::samples::counts::row;
use evaluator::samples::libraries::{chain, formulary};
use evaluator::samples::{document as sample, flat};
use evaluator::tree::Tree;
use yurzhoad::limits::needed_words;

#[test]
fn every_text_of_up_to_five_digits_is_judged_as_due() {
    let mut accepted = 0;
    for case in every_number() {
        let shown = case.rule.escape_ascii();
        assert_eq!(archive_refusal(&case.rule), case.due, "{shown}");
        accepted += usize::from(case.due.number == 0);
    }
    assert_eq!(accepted, COUNT_LIMIT + 1);
}

/// Every number up to one more than there are nodes if they are few, else those
/// near the ends and in the middle; and the most.
fn numbers(nodes: usize) -> Vec<usize> {
    let mut numbers: Vec<usize> = match nodes {
        0..=20 => (0..=nodes + 1).collect(),
        _ => vec![0, 1, 2, 3, nodes / 2, nodes - 1, nodes, nodes + 1],
    };
    numbers.extend([COUNT_LIMIT - 1, COUNT_LIMIT]);
    numbers.retain(|number| *number <= COUNT_LIMIT);
    numbers
}

const SIZES: [usize; 14] = [1, 2, 3, 4, 5, 9, 15, 16, 17, 20, 63, 64, 65, 257];

/// A path, and how many nodes it reaches from a node, given the nodes in all.
type Reaching = (&'static str, fn(usize, usize) -> usize);

/// Asserts where such a path reaches at least each number of nodes.
fn assert_reaching(document: &[u8], nodes: usize, (path, reached): Reaching) {
    for number in numbers(nodes) {
        let rule = format!("#{number}{path}");
        assert_due(document, &rule, |v| reached(nodes, v) >= number);
    }
}

#[test]
fn every_number_along_a_chain() {
    let reaching: [Reaching; 9] = [
        ("e", |_, _| 1),
        ("l", |nodes, v| usize::from(v + 1 < nodes)),
        ("*l", |nodes, v| nodes - v),
        (".l*l", |nodes, v| nodes - v - 1),
        ("*L", |_, v| v + 1),
        ("*+lL", |nodes, _| nodes),
        // Every second one, and those that are reached from two sides.
        ("*.ll", |nodes, v| (nodes - v).div_ceil(2)),
        (".*l*L", |nodes, _| nodes),
        (".*l[!#1l]", |_, _| 1),
    ];
    for nodes in SIZES {
        let document = spell(&chain(nodes));
        for reaching in reaching {
            assert_reaching(&document, nodes, reaching);
        }
    }
}

#[test]
fn every_number_along_a_row() {
    // The root is node 0, and its attributes are the row.
    let reaching: [Reaching; 8] = [
        ("r", |nodes, v| usize::from(v > 0 && v + 1 < nodes)),
        ("*r", |nodes, v| if v == 0 { 1 } else { nodes - v }),
        ("*R", |_, v| v.max(1)),
        (".l*r", |nodes, v| if v == 0 { nodes - 1 } else { 0 }),
        ("+*r*R", |nodes, v| if v == 0 { 1 } else { nodes - 1 }),
        ("+*r*r", |nodes, v| if v == 0 { 1 } else { nodes - v }),
        ("*+l+rR", |nodes, v| nodes - usize::from(v > 0)),
        // Up to the root from every attribute.
        (".*+LR*+lr", |nodes, _| nodes),
    ];
    for nodes in SIZES {
        let values: Vec<String> = (1..nodes).map(|number| format!("v{number}")).collect();
        let document = row(&values);
        for reaching in reaching {
            assert_reaching(&document, nodes, reaching);
        }
    }
}

/// Every path of so many of the bytes `e l r L R . + *`.
fn paths(bytes: usize) -> Vec<String> {
    if bytes == 1 {
        return ["e", "l", "r", "L", "R"].map(String::from).into();
    }
    let mut all: Vec<String> = paths(bytes - 1).iter().map(|p| format!("*{p}")).collect();
    for cut in 1..bytes - 1 {
        for first in paths(cut) {
            for second in paths(bytes - 1 - cut) {
                all.push(format!(".{first}{second}"));
                all.push(format!("+{first}{second}"));
            }
        }
    }
    all
}

/// Every tree of so many elements, by the depths of its nodes.
fn trees(nodes: usize) -> Vec<Vec<usize>> {
    let mut trees = vec![vec![0]];
    for _ in 1..nodes {
        let longer = |depths: &Vec<usize>| -> Vec<Vec<usize>> {
            let deepest = depths[depths.len() - 1] + 1;
            let add = |depth: usize| [&depths[..], &[depth]].concat();
            (1..=deepest).map(add).collect()
        };
        trees = trees.iter().flat_map(longer).collect();
    }
    trees
}

#[test]
fn every_short_path_on_every_small_tree() {
    let paths: Vec<String> = (1..=4).flat_map(paths).collect();
    assert_eq!(paths.len(), 5 + 5 + 55 + 155);
    let (mut calls, mut some) = (0, 0);
    for nodes in 1..=5 {
        let trees = trees(nodes);
        assert_eq!(trees.len(), [1, 1, 2, 5, 14][nodes - 1]);
        for depths in trees {
            let rows: Vec<_> = depths.iter().map(|depth| ('e', *depth, "a", "")).collect();
            let document = sample(&rows);
            for (path, number) in paths.iter().flat_map(|p| [0, 1, 2, 3].map(|n| (p, n))) {
                let rule = format!("#{number}{path}");
                let origin = format_args!("depths {depths:?}");
                let outcome = assert_agreement(origin, &document, rule.as_bytes(), needed(1));
                assert_eq!((outcome.number, outcome.snippets), (0, 0), "{rule}");
                let telling = outcome.selected > 0 && outcome.selected < nodes;
                some += usize::from(telling && number > 1);
                calls += 1;
            }
        }
    }
    println!("{calls} calls, {some} with a number above 1 marked some nodes and not all");
    assert!(calls > 20_000 && some > 1_500, "{calls}, {some}");
}

/// A library of so many nodes of either kind, with a rule that has a count.
fn draw_counting(random: &mut Random, nodes: usize) -> (Library, Tree, Test) {
    let library = match random.percent(50) {
        true => library(random, nodes),
        false => branching_library(random, nodes),
    };
    let tree = Tree::of(&library);
    for _ in 0..1_000 {
        let rule = rule_about(random, 10, &tree.values);
        if !counts(&rule).is_empty() {
            return (library, tree, rule);
        }
    }
    panic!("no rule has a count");
}

/// The paths that the counts of a rule have.
fn counted_paths(rule: &Test) -> Vec<&Path> {
    let counted = counts(rule).into_iter().filter_map(Test::counted);
    counted.map(|(_, path)| path).collect()
}

#[test]
fn every_number_on_random_trees() {
    let (mut compared, mut several) = (0, 0);
    // Other seeds than those of the other tests.
    for seed in 8_000_000..8_000_500 {
        println!("seed {seed}");
        let random = &mut Random::new(seed);
        let nodes = 1 + random.below(18);
        let (library, tree, rule) = draw_counting(random, nodes);
        let document = spell(&library);
        for path in counted_paths(&rule) {
            let reached = reaches(&tree, path);
            let due: Vec<usize> = (0..nodes).map(|v| reached.from(v).len()).collect();
            for number in numbers(nodes) {
                let rule = Test::AtLeast(number, path.clone()).spell();
                let rule = String::from_utf8(rule).expect("ASCII");
                assert_due(&document, &rule, |v| due[v] >= number);
                compared += 1;
            }
            let (least, most) = (due.iter().min(), due.iter().max());
            several += usize::from(most >= Some(&3) && least < most);
        }
    }
    println!("{compared} numbers, {several} paths reach three nodes from some nodes only");
    assert!(compared > 5_000 && several > 100, "{compared}, {several}");
}

/// What an evaluation marks and hands back.
fn evaluated(evaluation: Evaluation, document: &[u8], rule: &Test) -> (Outcome, Vec<u8>) {
    let nodes = document::check(document).nodes;
    let (mut scratch, mut marks) = (vec![5; needed_words(nodes)], vec![5; nodes]);
    let spelled = rule.spell();
    let outcome = called(evaluation, document, &spelled, &mut scratch, &mut marks);
    (outcome, marks)
}

/// Asserts that two rules are accepted and mark the same nodes, and returns
/// whether these are some and not all. What is too large for a rule is passed
/// over.
fn assert_same_marks(seed: u64, document: &[u8], one: &Test, other: &Test) -> bool {
    let mut telling = false;
    for evaluation in EVALUATIONS {
        let (first, marks) = evaluated(evaluation, document, one);
        let (second, others) = evaluated(evaluation, document, other);
        if first.number != 0 || second.number != 0 {
            return false;
        }
        if marks != others {
            for rule in [one, other] {
                assert_agreement(
                    format_args!("seed {seed}"),
                    document,
                    &rule.spell(),
                    needed(1),
                );
            }
            let shown = [one, other].map(|rule| rule.spell().escape_ascii().to_string());
            panic!("seed {seed}, {evaluation:?}: {shown:?}");
        }
        telling = marks.contains(&0) && marks.contains(&1);
    }
    telling
}

#[test]
fn other_ways_to_the_same_nodes_change_nothing() {
    let mut telling = [0; 4];
    for seed in 8_100_000..8_100_800 {
        let random = &mut Random::new(seed);
        let most = *random.pick(&[10, 40, 300]);
        let nodes = 1 + random.below(most);
        let (library, _, rule) = draw_counting(random, nodes);
        let document = spell(&library);
        for path in counted_paths(&rule) {
            let boxed = || Box::new(path.clone());
            let empty = || Box::new(Path::Empty);
            let number = 2 + random.below(4);
            let count = |path: Path| Test::AtLeast(number, path);
            let others = [
                Path::Either(boxed(), boxed()),
                Path::Then(empty(), boxed()),
                Path::Either(boxed(), Box::new(Path::Then(boxed(), empty()))),
                Path::Then(boxed(), Box::new(Path::Repeat(empty()))),
            ];
            for (other, telling) in others.into_iter().zip(&mut telling) {
                let same = assert_same_marks(seed, &document, &count(path.clone()), &count(other));
                *telling += usize::from(same);
            }
        }
    }
    println!("{telling:?} of more than one node marked some nodes and not all");
    assert!(telling.iter().all(|cases| *cases > 80), "{telling:?}");
}

/// A node that is reached has its own value: so the equality of a path with
/// itself holds where the path reaches a node at all. The one is found backwards
/// from all nodes, the other by snippets or by a walk from each node.
#[test]
fn a_count_of_one_marks_what_an_equality_of_its_path_with_itself_does() {
    let (mut telling, mut large) = (0, 0);
    for seed in 8_200_000..8_200_400 {
        let random = &mut Random::new(seed);
        let most = *random.pick(&[10, 40, 200, 600]);
        let nodes = 1 + random.below(most);
        let (library, _, rule) = draw_counting(random, nodes);
        let document = spell(&library);
        for path in counted_paths(&rule) {
            if path.steps().len() > 7 {
                continue;
            }
            let one = Test::AtLeast(1, path.clone());
            let operand = Operand::Path(path.clone());
            let equal = Test::Compare(path.clone(), Sign::Equal, operand);
            let same = assert_same_marks(seed, &document, &one, &equal);
            telling += usize::from(same);
            large += usize::from(same && nodes > 100);
            let none = Test::AtLeast(0, path.clone());
            for evaluation in EVALUATIONS {
                let (outcome, _) = evaluated(evaluation, &document, &none);
                assert_eq!(outcome.selected, nodes, "seed {seed}");
            }
        }
    }
    println!("{telling} marked some nodes and not all, {large} of more than 100 nodes");
    assert!(telling > 100 && large > 30, "{telling}, {large}");
}

/// Asserts where paths reach all nodes of a library of the most nodes, or all
/// but one.
fn assert_all_reached(document: &[u8]) {
    // From every node to every node.
    assert_due(document, "#4096*+l+r+LR", |_| true);
    assert_due(document, "#4095*+l+r+LR", |_| true);
    // Down from the root, which has all others inside.
    assert_due(document, "#4096*+lr", |v| v == 0);
    assert_due(document, "#4095.l*+lr", |v| v == 0);
    assert_due(document, "#4096.l*+lr", |_| false);
}

#[test]
fn all_nodes_of_the_deepest_library() {
    assert_all_reached(&spell(&chain(NODE_LIMIT)));
}

#[test]
fn all_nodes_of_the_widest_library() {
    assert_all_reached(&flat(NODE_LIMIT));
}

#[test]
fn all_nodes_of_a_random_library() {
    assert_all_reached(&spell(&library(&mut Random::new(9), NODE_LIMIT)));
}

#[test]
fn one_node_less_than_the_most() {
    let document = spell(&chain(NODE_LIMIT - 1));
    assert_due(&document, "#4096*+lL", |_| false);
    assert_due(&document, "#4095*l", |v| v == 0);
    assert_due(&document, "#4094*l", |v| v < 2);
}

/// Drugs of 11 nodes each, with two concentrations, as many as there is room for.
#[test]
fn the_concentrations_of_the_largest_formulary() {
    let document = spell(&formulary(NODE_LIMIT));
    let is_drug = |v: usize| v % 11 == 1;
    // The last one has its drug, its name and an area alone.
    let is_whole = |v: usize| is_drug(v) && v + 10 < NODE_LIMIT;
    assert_due(&document, "&:drug#2..l*r[:concentration]", is_whole);
    assert_due(&document, "&:drug#3..l*r[:concentration]", |_| false);
    assert_due(&document, "&:drug#10.l*+lr", is_whole);
    assert_due(&document, "&:drug#11.l*+lr", |_| false);
    assert_due(&document, "#373..l*r[:drug]", |v| v == 0);
    assert_due(&document, "#374..l*r[:drug]", |_| false);
    assert_due(&document, "#372..l*r[#10.l*+lr]", |v| v == 0);
    assert_due(&document, "#373..l*r[#10.l*+lr]", |_| false);
}
