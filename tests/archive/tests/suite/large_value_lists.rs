//! Parts of the values on rows of up to 4,096 nodes: the count is what a formula
//! gives for them, and the marks are looked up in the row.

use std::collections::BTreeSet;

use crate::evaluation_agreement::called_by_values;
use crate::snippet_counts::{stretches, Stretch};
use evaluator::document::NODE_LIMIT;
use evaluator::evaluate::Outcome;
use evaluator::random::{shuffle, Random};
use evaluator::samples::counts::{row, EVERYWHERE, PAIRS};
use yurzhoad::limits::needed_words;

/// A root with attributes in a row; node v has the value of this number.
struct Row {
    document: Vec<u8>,
    /// Of the nodes 1, 2 and so on. The root's value is empty and no other's.
    values: Vec<usize>,
}

impl Row {
    fn draw(random: &mut Random, nodes: usize, values: usize) -> Row {
        Row::of((1..nodes).map(|_| random.below(values)).collect())
    }

    fn of(values: Vec<usize>) -> Row {
        let spelled: Vec<String> = values.iter().map(|value| format!("v{value}")).collect();
        Row {
            document: row(&spelled),
            values,
        }
    }

    /// The nodes that have the value of one of these, the root left out.
    fn alike(&self, list: &[u16]) -> BTreeSet<usize> {
        let value = |node: usize| node.checked_sub(1).map(|at| self.values[at]);
        let listed: BTreeSet<Option<usize>> =
            list.iter().map(|node| value(usize::from(*node))).collect();
        let nodes = 1..=self.values.len();
        nodes
            .filter(|node| listed.contains(&value(*node)))
            .collect()
    }

    /// Each node of the list's values with the next one of its value.
    fn next(&self, list: &[u16]) -> Vec<(usize, usize)> {
        let alike = self.alike(list);
        let next = |node: &usize| {
            let value = self.values[node - 1];
            let later = alike.range(node + 1..);
            let mut of_value = later.filter(|other| self.values[**other - 1] == value);
            of_value.next().map(|other| (*node, *other))
        };
        alike.iter().filter_map(next).collect()
    }

    /// What the archive hands back, with the marked nodes.
    fn ask(&self, rule: &str, list: &[u16]) -> (Outcome, Vec<usize>) {
        let nodes = self.values.len() + 1;
        let (mut scratch, mut marks) = (vec![0xA5A5; needed_words(nodes)], vec![0xA5; nodes]);
        let (document, rule) = (&self.document, rule.as_bytes());
        let outcome = called_by_values(document, rule, list, &mut scratch, &mut marks);
        assert!(scratch.iter().all(|word| *word == 0));
        assert!(marks.iter().all(|mark| *mark <= 1));
        (outcome, (0..nodes).filter(|v| marks[*v] == 1).collect())
    }
}

/// Between each node and the next of its value every position leads everywhere, so
/// that each stretch has `PAIRS` snippets; what several values yield counts once.
fn assert_counted(row: &Row, list: &[u16]) -> usize {
    let pairs = row.next(list);
    let all: BTreeSet<Stretch> = pairs
        .iter()
        .flat_map(|(from, to)| stretches(*from, *to))
        .collect();
    let (outcome, marked) = row.ask(EVERYWHERE, list);
    let due = Outcome {
        number: 0,
        place: 0,
        selected: row.values.len() + 1,
        snippets: PAIRS * all.len(),
    };
    assert_eq!(outcome, due, "{list:?}");
    assert_eq!(marked.len(), due.selected);
    due.snippets
}

/// A node is marked if a later one has its value and the list has it too.
fn assert_marked(row: &Row, list: &[u16]) -> usize {
    let due: Vec<usize> = row.next(list).iter().map(|(node, _)| *node).collect();
    let (outcome, marked) = row.ask("(e=.r*r)", list);
    assert_eq!((outcome.number, outcome.selected), (0, due.len()));
    assert_eq!(marked, due, "{list:?}");
    due.len()
}

/// Node counts, with how many different values there are.
const SIZES: [(usize, usize); 8] = [
    (2, 1),
    (65, 20),
    (300, 100),
    (1_000, 10),
    (1_025, 400),
    (NODE_LIMIT, 3),
    (NODE_LIMIT, 500),
    (NODE_LIMIT, 3_000),
];

#[test]
fn parts_of_long_rows_are_counted_and_marked() {
    let (mut fewer, mut shared, mut some) = (0, 0, 0);
    for (seed, (nodes, values)) in (6_300_000..).zip(SIZES) {
        let random = &mut Random::new(seed);
        let row = Row::draw(random, nodes, values);
        let mut all: Vec<u16> = (0..nodes as u16).collect();
        shuffle(random, &mut all);
        let whole = assert_counted(&row, &all);
        let marked = assert_marked(&row, &all);
        for _ in 0..3 {
            let cut = random.below(nodes.min(3 * values));
            let part = &all[..cut];
            let alike = row.alike(part);
            let is_other = |node: &u16| !alike.contains(&usize::from(*node));
            let others: Vec<u16> = all.iter().copied().filter(is_other).collect();
            let counts = [part, &others].map(|list| assert_counted(&row, list));
            let marks = [part, &others].map(|list| assert_marked(&row, list));
            assert_eq!(marks[0] + marks[1], marked, "seed {seed}");
            assert!(counts[0] + counts[1] >= whole, "seed {seed}");
            fewer += usize::from(counts[0] > 0 && counts[0] < whole);
            shared += usize::from(counts[0] + counts[1] > whole);
            some += usize::from(marks[0] > 0 && marks[0] < marked);
        }
    }
    println!("{fewer} counted fewer, {shared} shared, {some} marked fewer");
    assert!(fewer >= 10 && shared >= 10 && some >= 10);
}

/// Each of two values alone, and both; the stretches of the last two lie apart.
#[test]
fn two_pairs_that_overlap_or_do_not() {
    for (first, second, overlap) in [
        ((1, 1_000), (2, 1_001), true),
        ((1, 4_095), (2, 4_094), true),
        ((1, 2_048), (1_024, 3_072), true),
        ((1, 4), (2, 5), true),
        ((5, 1_300), (1_301, 4_000), false),
    ] {
        let mut values: Vec<usize> = (10..10 + NODE_LIMIT - 1).collect();
        for (number, pair) in [first, second].into_iter().enumerate() {
            (values[pair.0 - 1], values[pair.1 - 1]) = (number, number);
        }
        let row = Row::of(values);
        let count = |nodes: &[usize]| {
            let list: Vec<u16> = nodes.iter().map(|node| *node as u16).collect();
            assert_counted(&row, &list)
        };
        let (one, other) = (count(&[first.0]), count(&[second.1]));
        let both = count(&[second.0, first.1]);
        assert!(one > 0 && other > 0 && both > one && both > other);
        assert_eq!(both < one + other, overlap, "{first:?} {second:?}");
    }
}
